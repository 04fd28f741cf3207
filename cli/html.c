#include "html.h"

int html_character(const unsigned char *p) {
    int more = *p < 0x80 ? 0 : *p >= 0xC2 && *p < 0xE0 ? 1 : *p >= 0xE0 && *p < 0xF0 ? 2 : *p >= 0xF0 && *p < 0xF5 ? 3 : -1;
    if (more < 0 || *p < 0x20 || *p == 0x7F) return 0;
    for (int i = 1; i <= more; i++)
        if ((p[i] & 0xC0) != 0x80) return 0;
    if ((*p == 0xE0 && p[1] < 0xA0) || (*p == 0xED && p[1] > 0x9F) || (*p == 0xF0 && p[1] < 0x90) || (*p == 0xF4 && p[1] > 0x8F)) return 0;
    if (*p == 0xC2 && p[1] < 0xA0) return 0;                     /* controls */
    if (*p == 0xEF && p[1] == 0xBF && p[2] > 0xBD) return 0;     /* U+FFFE, U+FFFF */
    return 1 + more;
}

void html_text(FILE *out, const char *text) {
    for (const unsigned char *p = (const unsigned char *)text; *p;) {
        int length = html_character(p);
        if (!length) fputs("\xEF\xBF\xBD", out), p++;
        else if (*p == '&') fputs("&amp;", out), p++;
        else if (*p == '<') fputs("&lt;", out), p++;
        else if (*p == '>') fputs("&gt;", out), p++;
        else fwrite(p, 1, (size_t)length, out), p += length;
    }
}

void html_base64(FILE *out, const uint8_t *bytes, size_t length) {
    static const char digits[] = "ABCDEFGHIJKLMNOPQRSTUVWXYZabcdefghijklmnopqrstuvwxyz0123456789+/";
    for (size_t i = 0; i < length; i += 3) {
        size_t left = length - i;
        uint32_t three = (uint32_t)bytes[i] << 16 | (left > 1 ? (uint32_t)bytes[i + 1] << 8 : 0) | (left > 2 ? bytes[i + 2] : 0u);
        char four[4] = {digits[three >> 18], digits[three >> 12 & 63], '=', '='};
        if (left > 1) four[2] = digits[three >> 6 & 63];
        if (left > 2) four[3] = digits[three & 63];
        fwrite(four, 1, sizeof four, out);
    }
}

void html_json(FILE *out, const char *text) {
    fputc('"', out);
    for (; *text; text++) {
        if (*text == '"' || *text == '\\' || *text == '<' || (unsigned char)*text < 0x20) fprintf(out, "\\u%04x", (unsigned char)*text);
        else fputc(*text, out);
    }
    fputc('"', out);
}
