int lamps[4] = {1, 2, 3, 4};
static int dark;
int dim(int level) { dark += level; return lamps[level & 3] + dark; }
