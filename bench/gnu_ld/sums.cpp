template <class T> T twice(T x) { return x + x; }
inline int thrice(int x) { return twice(x) + x; }
struct V { int a[4]; int sum() const { int t = 0; for (int i = 0; i < 4; ++i) t += a[i]; return t; } };
int main(int argc, char**) { V v{{argc, 2, 3, 4}}; return thrice(v.sum()) + (int)twice(2.0); }
