// The workloads on both sides. Each runs so many times over and gives a checksum of every answer and of the record that it ends with.
#pragma once
#include <stddef.h>
#include <stdint.h>

uint64_t engine_hire_fire(uint64_t times);
uint64_t engine_post(uint64_t times);
uint64_t engine_give_up(uint64_t times, size_t count);
uint64_t engine_hand_back(uint64_t times, size_t count);
uint64_t engine_list(uint64_t times, uint32_t count, uint32_t good);
uint64_t engine_scan(uint64_t times, uint32_t g, uint32_t b);
uint64_t engine_contention(uint64_t times);
uint64_t engine_refused(uint64_t times, size_t rule);
uint64_t engine_handed(uint64_t times);
uint64_t engine_played_steps(uint64_t times);
uint64_t engine_played_refusals(uint64_t times);
uint64_t engine_played_questions(uint64_t times);

uint64_t baseline_hire_fire(uint64_t times);
uint64_t baseline_post(uint64_t times);
uint64_t baseline_give_up(uint64_t times, size_t count);
uint64_t baseline_hand_back(uint64_t times, size_t count);
uint64_t baseline_list(uint64_t times, uint32_t count, uint32_t good);
uint64_t baseline_scan(uint64_t times, uint32_t g, uint32_t b);
uint64_t baseline_contention(uint64_t times);
uint64_t baseline_refused(uint64_t times, size_t rule);
uint64_t baseline_handed(uint64_t times);
uint64_t baseline_played_steps(uint64_t times);
uint64_t baseline_played_refusals(uint64_t times);
uint64_t baseline_played_questions(uint64_t times);
