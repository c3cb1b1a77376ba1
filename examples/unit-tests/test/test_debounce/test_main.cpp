#include <Arduino.h>
#include <Debounce.h>
#include <unity.h>

void setUp() {}
void tearDown() {}

void test_it_begins_with_its_level() {
  Debounce high(true, 10);
  TEST_ASSERT_TRUE(high.read());
}

void test_a_short_bounce_is_no_change() {
  Debounce button(true, 10);
  TEST_ASSERT_FALSE(button.update(false, 0));
  TEST_ASSERT_FALSE(button.update(true, 5));
  TEST_ASSERT_FALSE(button.update(true, 20));
  TEST_ASSERT_TRUE(button.read());
}

void test_a_level_that_stays_is_one_change() {
  Debounce button(true, 10);
  int changes = 0;
  for (uint32_t now = 0; now < 50; now++) changes += button.update(false, now);
  TEST_ASSERT_EQUAL(1, changes);
  TEST_ASSERT_FALSE(button.read());
}

void test_the_clock_may_overflow() {
  Debounce button(false, 10);
  TEST_ASSERT_FALSE(button.update(true, 0xFFFFFFFB));
  TEST_ASSERT_FALSE_MESSAGE(button.update(true, 4), "9 ms are too few");
  TEST_ASSERT_TRUE(button.update(true, 5));
}

void setup() {
  UNITY_BEGIN();
  RUN_TEST(test_it_begins_with_its_level);
  RUN_TEST(test_a_short_bounce_is_no_change);
  RUN_TEST(test_a_level_that_stays_is_one_change);
  RUN_TEST(test_the_clock_may_overflow);
  UNITY_END();
}

void loop() {}
