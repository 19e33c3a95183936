extern int dim(int);
static int patched = 7;
int patch(int n) { patched += dim(n); return patched; }
