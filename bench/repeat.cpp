// Reads a sheet from standard input and judges it as often as the first argument says; a second argument has the verdict written.
// VERDICT names the function.
#include <cstddef>
#include <cstdint>
#include <cstdio>
#include <cstdlib>
#include <zarpalume.h>

extern "C" size_t VERDICT(const uint8_t *sheet, size_t sheet_length, uint8_t *verdict, size_t verdict_length);

static uint8_t sheet[2 * ZARPALUME_SHEET_BYTES];
static uint8_t verdict[ZARPALUME_VERDICT_BYTES];

int main(int count, char **words) {
    const size_t sheet_length = fread(sheet, 1, sizeof sheet, stdin);
    size_t length = 0;
    for (long left = count > 1 ? atol(words[1]) : 1; left > 0; left--) length = VERDICT(sheet, sheet_length, verdict, sizeof verdict);
    return count > 2 && fwrite(verdict, 1, length, stdout) != length;
}
