/* The source that the others change: functions, objects, a weak and a protected function, and names that are not exported. */
int count = 1;
static int own(int x) { return x + count; }
__attribute__((visibility("hidden"))) int inner(int x) { return own(x); }
__attribute__((weak)) int maybe(int x) { return x; }
__attribute__((visibility("protected"))) int kept(int x) { return inner(x); }
int area(int width, int height) { return width * height; }
int border(int width, int height) { return 2 * (width + height); }
extern int outside(int x);
int around(int x) { return outside(x); }
