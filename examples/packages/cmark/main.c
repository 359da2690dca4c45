/* Makes HTML of a page in Markdown. */
#include "package.h"
#include <cmark.h>
#include <stdio.h>
#include <stdlib.h>
#include <string.h>

extern const char page[];
extern const uint32_t page_size;

int main(void) {
    char *html = cmark_markdown_to_html(page, page_size, CMARK_OPT_DEFAULT);
    printf("%u bytes of HTML from %u, sum %08x\n", (unsigned)strlen(html), (unsigned)page_size, sum_of(html, strlen(html)));
    fputs(html, stdout);
    free(html);
    return 0;
}
