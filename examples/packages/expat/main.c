/* Prints what expat finds in a document. */
#include "expat.h"
#include <stdio.h>
#include <string.h>

static const char document[] =
    "<?xml version='1.0' encoding='UTF-8'?>\n"
    "<!DOCTYPE a [<!ELEMENT a (b|c)*><!ENTITY who 'the <c>World</c>'><!ATTLIST b k CDATA 'default'>]>\n"
    "<a><b k='1 &lt; 2'>Hello &who;!</b><!-- no --><b/><c><![CDATA[<raw>]]></c>\xe3\x81\x82 &#x41;<?pi data?></a>";
static const char wrong[] = "<a><b></a>";

static int depth;

static void on_start(void *data, const char *name, const char **attributes) {
    printf("%*s<%s", depth++, "", name);
    for (; *attributes; attributes += 2)
        printf(" %s='%s'", attributes[0], attributes[1]);
    printf(">\n");
}

static void on_end(void *data, const char *name) {
    printf("%*s</%s>\n", --depth, "", name);
}

static void on_text(void *data, const char *text, int n) {
    printf("%*s\"%.*s\"\n", depth, "", n, text);
}

/* In pieces of so many bytes. */
static void read_in(const char *text, int piece) {
    XML_Parser parser = XML_ParserCreate(0);
    int n = strlen(text), ok = 1;
    depth = 0;
    XML_SetHashSalt(parser, 12345);
    XML_SetElementHandler(parser, on_start, on_end);
    XML_SetCharacterDataHandler(parser, on_text);
    for (int i = 0; i < n && ok; i += piece)
        ok = XML_Parse(parser, text + i, n - i < piece ? n - i : piece, i + piece >= n);
    printf("ok %d, %s, line %u column %u\n", ok, XML_ErrorString(XML_GetErrorCode(parser)), (unsigned)XML_GetCurrentLineNumber(parser),
           (unsigned)XML_GetCurrentColumnNumber(parser));
    XML_ParserFree(parser);
}

int main(void) {
    read_in(document, 1000);
    read_in(document, 1);
    read_in(wrong, 3);
    return 0;
}
