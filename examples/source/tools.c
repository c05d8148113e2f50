// Linked by GNU ld, which knows no inlined calls.
#include "tools.h"

int sum(const struct item *items, int count) {
  int total = 0;
  for (int i = 0; i < count; i++)
    total += items[i].weight;
  return total;
}

int heaviest(const struct item *items, int count) {
  int best = 0;
  for (int i = 1; i < count; i++)
    if (items[best].weight < items[i].weight)
      best = i;
  return best;
}
