// Every group of tests, one file each.
#pragma once

#include <string>

void test_paper_examples();
void test_program(const std::string& program, const std::string& why, const std::string& examples, const std::string& scratch);
void test_component_alone();
void test_starts();
void test_text_refusals();
void test_columns_by_force();
void test_model_refusals();
void test_call_refusals();
void test_request_refusals();
void test_round_trips();
void test_image_words();
void test_active_by_force();
void test_places_by_force();
void test_confluence_by_force();
void test_literal_product();
void test_all_orders();
void test_merged_runs();
void test_timed_runs();
void test_triggering();
void test_trees();
void test_simulation();
void test_repairs();
void test_names();
void test_draws();
void test_explaining();
void test_damaged_inputs();
void test_generator();
