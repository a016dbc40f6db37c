/* alone IMAGE COUNT: so many ticks of an image by the tick machine alone. */
#include <stddef.h>
#include <stdint.h>
#include <stdio.h>
#include <stdlib.h>

uint64_t ticks_alone(const uint8_t *bytes, size_t length, uint64_t count);

int main(int count, char **words) {
  static uint8_t image[1000000];
  FILE *file = count == 3 ? fopen(words[1], "rb") : NULL;
  size_t length;
  if (file == NULL) return 2;
  length = fread(image, 1, sizeof image, file);
  fclose(file);
  printf("%llu steps\n", (unsigned long long)ticks_alone(image, length, (uint64_t)atol(words[2])));
  return 0;
}
