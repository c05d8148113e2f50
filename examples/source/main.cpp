#include "archive.h"

extern "C" int plain(int a, int b);

namespace {

const unsigned char text[] = "Haughpan";

__attribute__((noinline)) int apply(int (*f)(int, int), int a, int b) {
  return f(a, b) + 1;
}

} // namespace

namespace archive {

int Reader::read(Entry *) { return 0; }

bool Reader::at_end() const { return last.length == 0; }

struct TextReader : Reader {
  __attribute__((noinline)) int read(Entry *entry) override;
};

int TextReader::read(Entry *entry) {
  *entry = last = Entry{text, sizeof text, 0};
  return at_end() ? 0 : 1;
}

} // namespace archive

extern "C" int start() {
  archive::TextReader reader;
  archive::Entry entries[2];
  reader.read(&entries[0]);
  entries[1] = entries[0];
  archive::Table<int, 3> table{{plain(1, 2), apply(plain, 3, 4), archive::count_bad(entries, 2)}};
  return table.largest();
}
