// Functions that two objects share, each in a section of its own: so each object has several pieces
// of the code.
template <int n>
int weighted(int x) {
    return x * n + weighted<n - 1>(x);
}

template <>
inline int weighted<0>(int x) {
    return x;
}

#ifdef FIRST
int second(int x);

static int own(int x) {
    return x + 3;
}

extern "C" int start(int x) {
    return weighted<2>(x) + second(x) + own(x);
}
#else
static int own(int x) {
    return x * x;
}

int second(int x) {
    return weighted<4>(x) + own(x);
}
#endif
