/* carry.h: request 13's export and import, for the tests of this folder. */
#ifndef CARRY_H
#define CARRY_H

#include "judge.h"

/* ---- exporting.c */
/* An export with this number for the chip, into seven bytes. Fails where it is not DONE and a byte changed. */
uint32_t export_any(uint32_t number, const uint8_t *image, size_t length, uint8_t *result, size_t room);

/* Some exports of an image that holds this map, whose keys rise: each is the map's text, whole or not at all. */
void some_exports(const uint8_t *image, size_t length, const struct entry *map, size_t entries);

/* The export of an image that holds this map is its text. */
void is_exported(const uint8_t *image, size_t length, const struct entry *map, size_t entries);

/* Exports of trees of every height, and with a text of every length around the right one. */
void exports_are_the_maps_text(void);

/* ---- importing.c */
/* An import of a text with this number for the chip. Fails where it changed the text. */
uint32_t import_any(uint32_t number, uint8_t *image, size_t length, uint8_t *result, size_t room);

/* An index carried to both chips through its text: the same map. */
void is_carried_across(const uint8_t *image, size_t length, const struct entry *map, size_t entries);

/* Texts of all kinds; with `quick` the longest are left out. */
void texts_are_imported(int quick);

/* What was met on the chip; fails where something was not. */
void tell_exports(void);
void tell_imports(void);

#endif
