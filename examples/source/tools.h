#pragma once

struct item {
  int weight;
  const char *name;
};

int sum(const struct item *items, int count);
int heaviest(const struct item *items, int count);
