// Each function reaches one type, which changes if GROWN is defined: p_ functions through a pointer to a type that grows, d_
// functions by value, with a member that points to a type that grows, so that the places of arguments stay the same.
#ifdef GROWN
#define MORE long more[4];
#else
#define MORE
#endif
struct one { int a; MORE };
struct two { int a; MORE };
typedef struct two two_t;
union four { int a; MORE };
struct five_in { int a; MORE };
struct five { struct five_in *in; };
struct six_in { int a; MORE };
struct six { struct six_in *in; };
typedef struct { int a; MORE } seven;
int p_one(struct one *x) { return x->a; }
int p_two(two_t *x) { return x->a; }
int p_four(union four *x) { return x->a; }
int d_five(struct five x) { return x.in->a; }
int d_six(struct six x) { return x.in->a; }
int p_seven(seven *x) { return x->a; }
