#pragma once

namespace bytes {

__attribute__((always_inline)) inline unsigned rotate(unsigned value, int by) {
  return value << by | value >> (32 - by);
}

struct Checksum {
  unsigned state = 1;

  __attribute__((always_inline)) void add(unsigned char byte) {
    state = rotate(state ^ byte, 5) * 0x27220a95;
  }
};

} // namespace bytes
