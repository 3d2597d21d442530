/*
 * The frames of MAPs in C, for checks/cost_of_frames: reads lines `map` and a payload in hexadecimal, and writes
 * `map` and the whole frame from 02:00:00:00:00:01 for each. The CRC takes eight bytes in a step, by eight tables.
 */
#include <stdint.h>
#include <stdio.h>
#include <string.h>

enum { OVERHEAD = 30, MOST = 976 };

static uint16_t ccitt[256];
static uint32_t ethernet[8][256];

static void make_tables(void) {
  for (uint32_t byte = 0; byte < 256; byte++) {
    uint32_t low = byte, high = byte;
    for (int bit = 0; bit < 8; bit++) {
      low = low >> 1 ^ (low & 1) * 0x8408u;
      high = high >> 1 ^ (high & 1) * 0xEDB88320u;
    }
    ccitt[byte] = (uint16_t)low;
    ethernet[0][byte] = high;
  }
  for (int place = 1; place < 8; place++)
    for (int byte = 0; byte < 256; byte++) {
      uint32_t before = ethernet[place - 1][byte];
      ethernet[place][byte] = before >> 8 ^ ethernet[0][before & 255];
    }
}

static uint16_t hcs(const uint8_t *bytes, size_t length) {
  uint16_t state = 0xFFFF;
  for (size_t at = 0; at < length; at++) state = (uint16_t)(state >> 8 ^ ccitt[(state ^ bytes[at]) & 255]);
  return (uint16_t)~state;
}

static uint32_t crc(const uint8_t *bytes, size_t length) {
  uint32_t state = 0xFFFFFFFF;
  for (; length >= 8; length -= 8, bytes += 8) {
    uint32_t low, high;
    memcpy(&low, bytes, 4);
    memcpy(&high, bytes + 4, 4);
    low ^= state;
    state = ethernet[7][low & 255] ^ ethernet[6][low >> 8 & 255] ^ ethernet[5][low >> 16 & 255]
      ^ ethernet[4][low >> 24] ^ ethernet[3][high & 255] ^ ethernet[2][high >> 8 & 255]
      ^ ethernet[1][high >> 16 & 255] ^ ethernet[0][high >> 24];
  }
  for (; length > 0; length--) state = state >> 8 ^ ethernet[0][(state ^ *bytes++) & 255];
  return ~state;
}

static void put_high_first(uint8_t *out, size_t number) {
  out[0] = (uint8_t)(number >> 8);
  out[1] = (uint8_t)number;
}

static void put_low_first(uint8_t *out, uint32_t number, int bytes) {
  for (int at = 0; at < bytes; at++) out[at] = (uint8_t)(number >> 8 * at);
}

/* Writes the frame of a payload, and answers how many bytes it has. It stands alone, so that its cost can be told. */
__attribute__((noinline)) size_t frame_in_c(const uint8_t *payload, size_t length, uint8_t *out) {
  static const uint8_t receivers[6] = {0x01, 0xE0, 0x2F, 0x00, 0x00, 0x01};
  static const uint8_t sender[6] = {0x02, 0x00, 0x00, 0x00, 0x00, 0x01};
  static const uint8_t type[6] = {0x00, 0x00, 0x03, 0x01, 0x03, 0x00};
  out[0] = 0xC2;
  out[1] = 0x00;
  put_high_first(out + 2, length + 24);
  put_low_first(out + 4, hcs(out, 4), 2);
  memcpy(out + 6, receivers, 6);
  memcpy(out + 12, sender, 6);
  put_high_first(out + 18, length + 6);
  memcpy(out + 20, type, 6);
  memcpy(out + 26, payload, length);
  put_low_first(out + 26 + length, crc(out + 6, length + 20), 4);
  return length + OVERHEAD;
}

static uint8_t digit_of(char letter) { return (uint8_t)(letter <= '9' ? letter - '0' : letter - 'a' + 10); }

int main(void) {
  static const char letters[] = "0123456789abcdef";
  static char line[2 * (MOST + OVERHEAD) + 16];
  static uint8_t payload[MOST], out[MOST + OVERHEAD];
  make_tables();
  while (fgets(line, sizeof line, stdin)) {
    size_t length = (strcspn(line, "\n") - 4) / 2;
    if (length > MOST) return 1;
    for (size_t at = 0; at < length; at++)
      payload[at] = (uint8_t)(digit_of(line[4 + 2 * at]) << 4 | digit_of(line[5 + 2 * at]));
    length = frame_in_c(payload, length, out);
    for (size_t at = 0; at < length; at++) {
      line[4 + 2 * at] = letters[out[at] >> 4];
      line[5 + 2 * at] = letters[out[at] & 15];
    }
    line[4 + 2 * length] = '\n';
    fwrite(line, 1, 5 + 2 * length, stdout);
  }
  return 0;
}
