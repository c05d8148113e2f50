#include "archive.h"
#include "checksum.h"

namespace archive {

__attribute__((noinline)) bool verify(const Entry &entry) {
  bytes::Checksum sum;
  for (unsigned i = 0; i < entry.length; i++)
    sum.add(entry.bytes[i]);
  return sum.state == entry.checksum;
}

__attribute__((noinline)) int count_bad(const Entry *entries, int count) {
  int bad = 0;
  for (int i = 0; i < count; i++)
    if (!verify(entries[i]))
      bad++;
  return bad;
}

} // namespace archive
