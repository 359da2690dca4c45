/* QR codes of some texts, at the lowest and the highest level of correction. */
#include "package.h"
#include "qrencode.h"
#include <stdio.h>

static const char *texts[] = {"PREVIRTUALIZED", "https://www.debian.org/", "0123456789012345678901234567890", "mixed: ABC 123 abc \xe3\x81\x82"};

static void draw(const QRcode *code) {
    for (int y = 0; y < code->width; y++) {
        for (int x = 0; x < code->width; x++)
            fputs(code->data[y * code->width + x] & 1 ? "##" : "  ", stdout);
        putchar('\n');
    }
}

int main(void) {
    for (int i = 0; i < 4; i++)
        for (QRecLevel level = QR_ECLEVEL_L; level <= QR_ECLEVEL_H; level += QR_ECLEVEL_H) {
            QRcode *code = QRcode_encodeString(texts[i], 0, level, QR_MODE_8, 1);
            printf("text %d level %d: version %d width %d sum %08x\n", i, level, code->version, code->width, sum_of(code->data, code->width * code->width));
            if (i < 2 && level == QR_ECLEVEL_L)
                draw(code);
            QRcode_free(code);
        }
    return 0;
}
