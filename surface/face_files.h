/*
 * Face files as OFF text: each function lends `text` with what it writes.
 */
#ifndef SURFACE_FACE_FILES_H
#define SURFACE_FACE_FILES_H

#include "rooms.h"
#include <string.h>

static size_t text_end; /* how much of the text is written */

static void put_words(const char *words)
{
    for (; *words != 0; words++)
        text[text_end++] = (uint8_t)*words;
}

static void put_number(uint32_t number)
{
    if (number >= 10)
        put_number(number / 10);
    text[text_end++] = (uint8_t)('0' + number % 10);
}

static void put_after_blank(uint32_t number)
{
    put_words(" ");
    put_number(number);
}

/* A text of so many bytes at most. */
static void open_text(size_t most)
{
    LEND(text, most);
    text_end = 0;
}

static void end_text(void)
{
    SHORTEN(text, text_end);
}

static void lend_text(const char *words)
{
    open_text(strlen(words));
    put_words(words);
}

/* The word, the counts and the vertices, all of them at one place. */
static void begin_text(uint32_t vertices, uint32_t faces)
{
    open_text(LONGEST_TEXT);
    put_words("OFF");
    put_after_blank(vertices);
    put_after_blank(faces);
    put_words(" 0\n");
    while (vertices-- > 0)
        put_words("0.25 -1.5 10\n");
}

static void put_face(uint32_t corners, const uint32_t *vertices)
{
    put_number(corners);
    while (corners-- > 0)
        put_after_blank(*vertices++);
    put_words("\n");
}

/* Squares in a grid or, wrapped, a torus, in the order and with the sides of post_grid. */
static void lend_grid_text(uint32_t columns, uint32_t rows, int wrapped)
{
    uint32_t x, y, across = wrapped ? columns : columns + 1, up = wrapped ? rows : rows + 1;
    begin_text(across * up, columns * rows);
    for (y = 0; y < rows; y++)
        for (x = 0; x < columns; x++) {
            uint32_t next = (x + 1) % across, above = (y + 1) % up * across;
            uint32_t square[4] = { y * across + x, y * across + next, above + next, above + x };
            put_face(4, square);
        }
    end_text();
}

#endif
