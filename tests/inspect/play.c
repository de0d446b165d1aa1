/* play: plays the lines of standard input on a fresh register and writes its image to standard output. */
#include <stdio.h>
#include <string.h>

#include <fellunqa.h>

int main(void)
{
    uint8_t image[FELLUNQA_IMAGE_MAX] = {0};
    size_t length = FELLUNQA_IMAGE_MIN;
    char line[FELLUNQA_LINE_MAX + 2];
    while (fgets(line, sizeof line, stdin) != NULL) {
        uint8_t area[FELLUNQA_AREA_MAX];
        int64_t answer = fellunqa_apply(image, length, (const uint8_t *)line, strlen(line), area, sizeof area);
        if (answer < 0)
            continue;
        length = (size_t)area[0] << 8 | area[1];
        memcpy(image, area + 2, length);
    }
    return fwrite(image, 1, length, stdout) != length || fflush(stdout) != 0 || ferror(stdin);
}
