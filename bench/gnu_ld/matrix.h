#include <vector>
struct Matrix { std::vector<std::vector<double>> rows; explicit Matrix(int n) : rows(n, std::vector<double>(n, 0.0)) {} int rank() const; double& at(int i, int j) { return rows[i][j]; } double get(int i, int j) const { return rows[i][j]; } };
Matrix operator*(const Matrix& a, const Matrix& b);
double trace(const Matrix& m);
template <class T> const char* name_of(T) { return "other"; }
template <> const char* name_of<int>(int);
template <class T> class Sum { T t = T(); public: void add(T x) { t = t + x; } T total() const { return t; } };
