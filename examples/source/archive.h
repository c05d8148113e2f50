#pragma once

namespace archive {

struct Entry {
  const unsigned char *bytes;
  unsigned length;
  unsigned checksum;
};

struct Reader {
  virtual int read(Entry *entry);
  virtual bool at_end() const;
  Entry last{};
};

bool verify(const Entry &entry);
int count_bad(const Entry *entries, int count);

template <typename T, int N>
struct Table {
  T items[N];
  __attribute__((noinline)) T largest() const {
    T best = items[0];
    for (int i = 1; i < N; i++)
      if (best < items[i])
        best = items[i];
    return best;
  }
};

} // namespace archive
