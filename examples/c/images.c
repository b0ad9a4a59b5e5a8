/* A file of images checked through the library. From the repository's root:
 *
 *     tools/build mezhukan
 *     cc -std=c11 -I include -o target/images examples/c/images.c target/staticlib/libmezhukan.a
 *     target/images < examples/images.txt
 *
 * It reads a file of images (image_file.h has its form, and the exit status), and prints a line `number,place` for each. A good answer is that it passes. */
#include "image_file.h"
#include "mezhukan.h"

static bool check(const struct bytes *sheet, const struct bytes *code, uint64_t depth) {
    uint64_t answer[MEZHUKAN_CHECKED];
    uint8_t number = mezhukan_check_image(sheet->at, sheet->length, code->at, code->length, depth, answer);
    printf("%lu,%lu\n", (unsigned long)answer[MEZHUKAN_NUMBER], (unsigned long)answer[MEZHUKAN_PLACE]);
    return number == 0;
}

int main(void) {
    return answer_file("images", check);
}
