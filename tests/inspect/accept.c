/* accept: stands in for the library and gives any image the same answer, so that inspect's own reader sees all bytes. */
#include <fellunqa.h>

#ifndef ANSWER
#define ANSWER (-FELLUNQA_MALFORMED) /* to an empty line: this is an image */
#endif

int64_t fellunqa_apply(const uint8_t *image, size_t image_len, const uint8_t *line, size_t line_len, uint8_t *area,
                       size_t area_len)
{
    (void)image, (void)image_len, (void)line, (void)line_len, (void)area, (void)area_len;
    return ANSWER;
}
