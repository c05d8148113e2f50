#include <vector>
#include <string>
#include <map>
#include "matrix.h"
int Matrix::rank() const { return (int)rows.size(); }
Matrix operator*(const Matrix& a, const Matrix& b) { Matrix m(a.rank()); for (int i = 0; i < a.rank(); ++i) for (int j = 0; j < b.rank(); ++j) for (int k = 0; k < a.rank(); ++k) m.at(i, j) += a.get(i, k) * b.get(k, j); return m; }
template <> const char* name_of<int>(int) { return "int"; }
double trace(const Matrix& m) { Sum<double> s; for (int i = 0; i < m.rank(); ++i) s.add(m.get(i, i)); return s.total(); }
