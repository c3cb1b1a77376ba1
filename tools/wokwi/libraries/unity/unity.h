// A small test frame with the names and the output of Unity, on Serial at 115,200 baud. It is taken where Unity is not
// installed; PlatformIO brings Unity itself. A test ends at its first assertion that does not hold.
#ifndef UNITY_H
#define UNITY_H

#include <Arduino.h>
#include <setjmp.h>
#include <string.h>

void setUp();
void tearDown();

struct UnityState {
  int tests, failures, ignored;
  const char *name;
  jmp_buf end;
};

inline UnityState &unity_state() {
  static UnityState state;
  return state;
}

inline void unity_result(const char *file, int line, const char *how) {
  Serial.print(file);
  Serial.print(':');
  Serial.print(line);
  Serial.print(':');
  Serial.print(unity_state().name);
  Serial.print(':');
  Serial.print(how);
}

inline void unity_message(const char *message) {
  if (!message) return;
  Serial.print(F(". "));
  Serial.print(message);
}

inline void unity_leave() {
  Serial.println();
  longjmp(unity_state().end, 1);
}

inline void unity_fail(const char *file, int line, const char *why, const char *message) {
  unity_state().failures++;
  unity_result(file, line, "FAIL: ");
  Serial.print(why);
  unity_message(message);
  unity_leave();
}

inline void unity_ignore(const char *file, int line, const char *message) {
  unity_state().ignored++;
  unity_result(file, line, "IGNORE");
  if (message) {
    Serial.print(F(": "));
    Serial.print(message);
  }
  unity_leave();
}

template <typename T, typename U> inline void unity_equal(const char *file, int line, T expected, U actual, bool holds, const char *message) {
  if (holds) return;
  unity_state().failures++;
  unity_result(file, line, "FAIL: Expected ");
  Serial.print(expected);
  Serial.print(F(" Was "));
  Serial.print(actual);
  unity_message(message);
  unity_leave();
}

inline int unity_begin() {
  memset(&unity_state(), 0, sizeof(UnityState));
  Serial.begin(115200);
  return 0;
}

inline int unity_end() {
  UnityState &state = unity_state();
  Serial.println(F("\n-----------------------"));
  Serial.print(state.tests);
  Serial.print(F(" Tests "));
  Serial.print(state.failures);
  Serial.print(F(" Failures "));
  Serial.print(state.ignored);
  Serial.println(F(" Ignored"));
  Serial.println(state.failures ? F("FAIL") : F("OK"));
  Serial.flush();
  return state.failures;
}

inline void unity_run(void (*test)(), const char *name, const char *file, int line) {
  UnityState &state = unity_state();
  state.name = name;
  state.tests++;
  if (setjmp(state.end) == 0) {
    setUp();
    test();
    unity_result(file, line, "PASS");
    Serial.println();
  }
  if (setjmp(state.end) == 0) tearDown();
}

#define UNITY_BEGIN() unity_begin()
#define UNITY_END() unity_end()
#define RUN_TEST(test) unity_run(test, #test, __FILE__, __LINE__)

#define TEST_FAIL_MESSAGE(message) unity_fail(__FILE__, __LINE__, message, 0)
#define TEST_FAIL() unity_fail(__FILE__, __LINE__, "", 0)
#define TEST_IGNORE_MESSAGE(message) unity_ignore(__FILE__, __LINE__, message)
#define TEST_IGNORE() unity_ignore(__FILE__, __LINE__, 0)
#define TEST_PASS() longjmp(unity_state().end, 1)

#define UNITY_HOLDS(condition, why, message) \
  do { \
    if (!(condition)) unity_fail(__FILE__, __LINE__, why, message); \
  } while (0)
#define UNITY_EQUAL(type, expected, actual, message) \
  do { \
    type unity_e = (type)(expected), unity_a = (type)(actual); \
    unity_equal(__FILE__, __LINE__, unity_e, unity_a, unity_e == unity_a, message); \
  } while (0)
#define UNITY_TEXT(expected, actual, message) \
  do { \
    const char *unity_e = (expected), *unity_a = (actual); \
    unity_equal(__FILE__, __LINE__, unity_e, unity_a, strcmp(unity_e, unity_a) == 0, message); \
  } while (0)
#define UNITY_WITHIN(type, delta, expected, actual, message) \
  do { \
    type unity_e = (type)(expected), unity_a = (type)(actual); \
    unity_equal(__FILE__, __LINE__, unity_e, unity_a, (unity_e < unity_a ? unity_a - unity_e : unity_e - unity_a) <= (type)(delta), message); \
  } while (0)

#define TEST_ASSERT_MESSAGE(condition, message) UNITY_HOLDS(condition, "Expression Evaluated To FALSE", message)
#define TEST_ASSERT_TRUE_MESSAGE(condition, message) UNITY_HOLDS(condition, "Expected TRUE Was FALSE", message)
#define TEST_ASSERT_FALSE_MESSAGE(condition, message) UNITY_HOLDS(!(condition), "Expected FALSE Was TRUE", message)
#define TEST_ASSERT_NULL_MESSAGE(pointer, message) UNITY_HOLDS((pointer) == 0, "Expected NULL", message)
#define TEST_ASSERT_NOT_NULL_MESSAGE(pointer, message) UNITY_HOLDS((pointer) != 0, "Expected Non-NULL", message)
#define TEST_ASSERT_EQUAL_MESSAGE(expected, actual, message) UNITY_EQUAL(long, expected, actual, message)
#define TEST_ASSERT_EQUAL_UINT32_MESSAGE(expected, actual, message) UNITY_EQUAL(unsigned long, expected, actual, message)
#define TEST_ASSERT_EQUAL_FLOAT_MESSAGE(expected, actual, message) UNITY_WITHIN(double, (expected) < 0 ? -(expected) * 1e-5 : (expected) * 1e-5, expected, actual, message)
#define TEST_ASSERT_EQUAL_STRING_MESSAGE(expected, actual, message) UNITY_TEXT(expected, actual, message)
#define TEST_ASSERT_INT_WITHIN_MESSAGE(delta, expected, actual, message) UNITY_WITHIN(long, delta, expected, actual, message)
#define TEST_ASSERT_FLOAT_WITHIN_MESSAGE(delta, expected, actual, message) UNITY_WITHIN(double, delta, expected, actual, message)

#define TEST_ASSERT(condition) TEST_ASSERT_MESSAGE(condition, 0)
#define TEST_ASSERT_TRUE(condition) TEST_ASSERT_TRUE_MESSAGE(condition, 0)
#define TEST_ASSERT_FALSE(condition) TEST_ASSERT_FALSE_MESSAGE(condition, 0)
#define TEST_ASSERT_UNLESS(condition) TEST_ASSERT_FALSE_MESSAGE(condition, 0)
#define TEST_ASSERT_NULL(pointer) TEST_ASSERT_NULL_MESSAGE(pointer, 0)
#define TEST_ASSERT_NOT_NULL(pointer) TEST_ASSERT_NOT_NULL_MESSAGE(pointer, 0)
#define TEST_ASSERT_EQUAL(expected, actual) TEST_ASSERT_EQUAL_MESSAGE(expected, actual, 0)
#define TEST_ASSERT_EQUAL_INT(expected, actual) TEST_ASSERT_EQUAL_MESSAGE(expected, actual, 0)
#define TEST_ASSERT_EQUAL_INT8(expected, actual) TEST_ASSERT_EQUAL_MESSAGE(expected, actual, 0)
#define TEST_ASSERT_EQUAL_INT16(expected, actual) TEST_ASSERT_EQUAL_MESSAGE(expected, actual, 0)
#define TEST_ASSERT_EQUAL_INT32(expected, actual) TEST_ASSERT_EQUAL_MESSAGE(expected, actual, 0)
#define TEST_ASSERT_EQUAL_UINT(expected, actual) TEST_ASSERT_EQUAL_UINT32_MESSAGE(expected, actual, 0)
#define TEST_ASSERT_EQUAL_UINT8(expected, actual) TEST_ASSERT_EQUAL_UINT32_MESSAGE(expected, actual, 0)
#define TEST_ASSERT_EQUAL_UINT16(expected, actual) TEST_ASSERT_EQUAL_UINT32_MESSAGE(expected, actual, 0)
#define TEST_ASSERT_EQUAL_UINT32(expected, actual) TEST_ASSERT_EQUAL_UINT32_MESSAGE(expected, actual, 0)
#define TEST_ASSERT_EQUAL_HEX8(expected, actual) TEST_ASSERT_EQUAL_UINT32_MESSAGE(expected, actual, 0)
#define TEST_ASSERT_EQUAL_HEX16(expected, actual) TEST_ASSERT_EQUAL_UINT32_MESSAGE(expected, actual, 0)
#define TEST_ASSERT_EQUAL_FLOAT(expected, actual) TEST_ASSERT_EQUAL_FLOAT_MESSAGE(expected, actual, 0)
#define TEST_ASSERT_EQUAL_STRING(expected, actual) TEST_ASSERT_EQUAL_STRING_MESSAGE(expected, actual, 0)
#define TEST_ASSERT_INT_WITHIN(delta, expected, actual) TEST_ASSERT_INT_WITHIN_MESSAGE(delta, expected, actual, 0)
#define TEST_ASSERT_FLOAT_WITHIN(delta, expected, actual) TEST_ASSERT_FLOAT_WITHIN_MESSAGE(delta, expected, actual, 0)

#endif
