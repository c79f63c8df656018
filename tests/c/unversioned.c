/* Exports without versions. Build 2 of versions.c has their names: with several versions, with the first one, and with another
   one that is the default. The option -DLATE adds a name that it also has, but neither with the first version nor with a
   default one. */
int pick(int x) { return x; }
int plain(int x) { return x; }
int table[1] = {1};
int only(int x) { return x; }
#ifdef LATE
int late(int x) { return x; }
#endif
