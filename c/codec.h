/* How structs cross in c/serve.c: field by field, numbers lowest octet first, those of eight octets after all others, and reserved octets
 * not at all. tools/gen_boundary.py writes this file out of tools/boundary.desc; c/serve.c has take_number and give_number. */
#ifndef CODEC_H
#define CODEC_H

#include "delampuk.h"

#include <string.h>

static size_t take_number(int octets);
static void give_number(size_t number, int octets);

static void take_mode(struct delampuk_mode *at) {
    at->audio = (uint8_t)take_number(1);
    at->lsd = (uint8_t)take_number(1);
}

static void take_sender(struct delampuk_sender *at) {
    at->chosen = (uint8_t)take_number(1);
    take_mode(&at->mode);
    at->block = (uint8_t)take_number(1);
    at->due = (uint8_t)take_number(1);
    at->remainder = (uint8_t)take_number(1);
}

static void take_slot(struct delampuk_slot *at) {
    at->kind = (uint8_t)take_number(1);
    at->words = (uint8_t)take_number(1);
}

static void take_reader(struct delampuk_reader *at) {
    take_mode(&at->mode);
    take_mode(&at->kept);
    at->wrong = (uint8_t)take_number(1);
    at->block = (uint8_t)take_number(1);
    at->firsts = (uint8_t)take_number(1);
    at->misses = (uint8_t)take_number(1);
    take_slot(&at->slot);
    at->before = (uint8_t)take_number(1);
    at->remainder = (uint8_t)take_number(1);
}

static void take_walk(struct delampuk_walk *at) {
    memset(at, 0, sizeof *at);
    take_reader(&at->reader);
    at->lost = (uint8_t)take_number(1);
    at->place = take_number(8);
}

static void give_mode(const struct delampuk_mode *at) {
    give_number(at->audio, 1);
    give_number(at->lsd, 1);
}

static void give_sender(const struct delampuk_sender *at) {
    give_number(at->chosen, 1);
    give_mode(&at->mode);
    give_number(at->block, 1);
    give_number(at->due, 1);
    give_number(at->remainder, 1);
}

static void give_send_answer(const struct delampuk_send_answer *at) {
    give_number(at->kind, 1);
    give_number(at->number, 1);
}

static void give_sender_told(const struct delampuk_sender_told *at) {
    give_mode(&at->mode);
    give_number(at->chosen, 1);
    give_number(at->due, 1);
}

static void give_preset_answer(const struct delampuk_preset_answer *at) {
    give_number(at->offer, 1);
    give_number(at->number, 1);
}

static void give_preset_bits(const struct delampuk_preset_bits *at) {
    give_number(at->bits, 2);
    give_number(at->number, 1);
}

static void give_slot(const struct delampuk_slot *at) {
    give_number(at->kind, 1);
    give_number(at->words, 1);
}

static void give_reader(const struct delampuk_reader *at) {
    give_mode(&at->mode);
    give_mode(&at->kept);
    give_number(at->wrong, 1);
    give_number(at->block, 1);
    give_number(at->firsts, 1);
    give_number(at->misses, 1);
    give_slot(&at->slot);
    give_number(at->before, 1);
    give_number(at->remainder, 1);
}

static void give_block_answer(const struct delampuk_block_answer *at) {
    give_number(at->standing, 1);
    give_number(at->verdict, 1);
    give_number(at->reading, 1);
    give_number(at->code, 1);
}

static void give_read_answer(const struct delampuk_read_answer *at) {
    give_number(at->kind, 1);
    give_number(at->number, 1);
    give_block_answer(&at->block);
}

static void give_reader_told(const struct delampuk_reader_told *at) {
    give_mode(&at->mode);
    give_number(at->block, 1);
    give_number(at->due, 1);
    give_number(at->words, 1);
}

static void give_search_answer(const struct delampuk_search_answer *at) {
    give_number(at->number, 1);
    give_number(at->place, 8);
}

static void give_walk(const struct delampuk_walk *at) {
    give_reader(&at->reader);
    give_number(at->lost, 1);
    give_number(at->place, 8);
}

static void give_step_answer(const struct delampuk_step_answer *at) {
    give_number(at->kind, 1);
    give_number(at->number, 1);
    give_block_answer(&at->block);
    give_number(at->value, 8);
}

static void give_counts(const struct delampuk_counts *at) {
    give_number(at->voice, 2);
    give_number(at->lsd, 2);
}

static void give_code(const struct delampuk_code *at) {
    give_number(at->kind, 1);
    give_number(at->carried, 1);
    give_number(at->first_bit, 1);
    give_number(at->last_bit, 1);
    give_number(at->first_sc, 1);
    give_number(at->last_sc, 1);
}

static void give_library(const struct delampuk_library *at) {
    give_number(at->version, 4);
    give_number(at->sender, 2);
    give_number(at->reader, 2);
    give_number(at->walk, 2);
    give_number(at->reserved, 2);
}

#endif
