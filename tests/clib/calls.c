/* One call of each kind, for tests/clib/run: tests/clib/calls.table has the message of each, in this order. */
#include <dlt/dlt.h>
#include <stdio.h>
#include <stdlib.h>
#include <string.h>

static DltContext c;

static void numbers(void) {
    DLT_LOG(c, DLT_LOG_FATAL, DLT_BOOL(0), DLT_BOOL(1));
    DLT_LOG(c, DLT_LOG_ERROR, DLT_INT(-7), DLT_INT8(-8), DLT_INT16(-300), DLT_INT32(-70000), DLT_INT64(-5000000000LL));
    DLT_LOG(c, DLT_LOG_WARN, DLT_UINT(7), DLT_UINT8(200), DLT_UINT16(60000), DLT_UINT32(4000000000U), DLT_UINT64(18446744073709551615ULL));
    DLT_LOG(c, DLT_LOG_INFO, DLT_FLOAT32(1.5f), DLT_FLOAT64(-0.25));
    DLT_LOG(c, DLT_LOG_DEBUG, DLT_HEX8(0xab), DLT_HEX16(0xabcd), DLT_HEX32(0xabcdef01), DLT_HEX64(0xabcdef0123456789ULL));
    DLT_LOG(c, DLT_LOG_VERBOSE, DLT_BIN8(0x5a), DLT_BIN16(0x5aa5));
    DLT_LOG(c, DLT_LOG_INFO, DLT_PTR((void *)0x1234));
}

static void named_numbers(void) {
    DLT_LOG(c, DLT_LOG_INFO, DLT_BOOL_ATTR(1, "door"));
    DLT_LOG(c, DLT_LOG_INFO, DLT_INT_ATTR(-7, "speed", "km/h"), DLT_INT8_ATTR(-8, "a", "b"), DLT_INT16_ATTR(-300, "a", ""));
    DLT_LOG(c, DLT_LOG_INFO, DLT_INT32_ATTR(-70000, "", "b"), DLT_INT64_ATTR(-5000000000LL, "long name", "unit"));
    DLT_LOG(c, DLT_LOG_INFO, DLT_UINT_ATTR(7, "speed", "km/h"), DLT_UINT8_ATTR(8, "a", "b"), DLT_UINT16_ATTR(300, "a", ""));
    DLT_LOG(c, DLT_LOG_INFO, DLT_UINT32_ATTR(70000, "", "b"), DLT_UINT64_ATTR(5000000000ULL, "long name", "unit"));
    DLT_LOG(c, DLT_LOG_INFO, DLT_FLOAT32_ATTR(2.5f, "temp", "C"), DLT_FLOAT64_ATTR(1e300, "x", "y"));
}

static void texts(void) {
    DLT_LOG(c, DLT_LOG_INFO, DLT_STRING("hello"), DLT_STRING(""));
    DLT_LOG(c, DLT_LOG_INFO, DLT_SIZED_STRING("hello", 4));
    DLT_LOG(c, DLT_LOG_INFO, DLT_CSTRING("constant"), DLT_SIZED_CSTRING("constant", 3));
    DLT_LOG(c, DLT_LOG_INFO, DLT_UTF8("gr\xc3\xbc\xc3\x9f"), DLT_SIZED_UTF8("gr\xc3\xbc", 4));
    DLT_LOG(c, DLT_LOG_INFO, DLT_CUTF8("utf8"), DLT_SIZED_CUTF8("utf8", 2));
    DLT_LOG(c, DLT_LOG_INFO, DLT_STRING_ATTR("value", "name"), DLT_SIZED_STRING_ATTR("value", 2, "name"));
    DLT_LOG(c, DLT_LOG_INFO, DLT_CSTRING_ATTR("value", "name"), DLT_SIZED_CSTRING_ATTR("value", 2, "name"));
    DLT_LOG(c, DLT_LOG_INFO, DLT_UTF8_ATTR("value", "name"), (void)dlt_user_log_write_sized_utf8_string_attr(&log_local, "value", 2, "name"));
    DLT_LOG(c, DLT_LOG_INFO, DLT_CUTF8_ATTR("value", "name"), DLT_SIZED_CUTF8_ATTR("value", 2, "name"));
}

static void bytes(void) {
    unsigned char some[] = {0, 1, 2, 0xfe, 0xff};
    DLT_LOG(c, DLT_LOG_INFO, DLT_RAW(some, sizeof some), DLT_RAW(some, 0));
    DLT_LOG(c, DLT_LOG_INFO, DLT_RAW_ATTR(some, sizeof some, "some"));
    DLT_LOG(c, DLT_LOG_INFO, (void)dlt_user_log_write_raw_formatted(&log_local, some, sizeof some, DLT_FORMAT_HEX8));
    DLT_LOG(c, DLT_LOG_INFO, (void)dlt_user_log_write_raw_formatted(&log_local, some, sizeof some, DLT_FORMAT_BIN16));
    DLT_LOG(c, DLT_LOG_INFO, (void)dlt_user_log_write_raw_formatted_attr(&log_local, some, sizeof some, DLT_FORMAT_HEX64, "some"));
}

static void too_long(void) {
    static char many[2000];
    static unsigned char raw[1400];
    memset(many, 'x', sizeof many - 1);
    DLT_LOG(c, DLT_LOG_INFO, DLT_STRING(many));
    DLT_LOG(c, DLT_LOG_INFO, DLT_INT(1), DLT_UTF8(many));
    DLT_LOG(c, DLT_LOG_INFO, DLT_STRING_ATTR(many, "name"));
    DLT_LOG(c, DLT_LOG_INFO, DLT_RAW(raw, sizeof raw), DLT_INT(2));
    DLT_LOG(c, DLT_LOG_INFO, DLT_RAW(raw, 1380), DLT_INT(3), DLT_UINT8(4));
    DLT_LOG(c, DLT_LOG_INFO, DLT_SIZED_STRING(many, 1383));
    DLT_LOG(c, DLT_LOG_INFO, DLT_SIZED_STRING(many, 1382), DLT_STRING("y"));
}

static void whole(void) {
    unsigned char some[] = {9, 8, 7};
    DLT_LOG_STRING(c, DLT_LOG_INFO, "whole");
    DLT_LOG_STRING_INT(c, DLT_LOG_INFO, "whole", -1);
    DLT_LOG_STRING_UINT(c, DLT_LOG_INFO, "whole", 1);
    DLT_LOG_INT(c, DLT_LOG_INFO, -2);
    DLT_LOG_UINT(c, DLT_LOG_INFO, 2);
    DLT_LOG_RAW(c, DLT_LOG_INFO, some, sizeof some);
}

static void with_ids(void) {
    DLT_LOG_ID(c, DLT_LOG_INFO, 77, DLT_STRING("id"), DLT_CSTRING("constant"), DLT_INT(5));
    DLT_NONVERBOSE_MODE();
    DLT_LOG_ID(c, DLT_LOG_INFO, 77, DLT_STRING("id"), DLT_CSTRING("constant"), DLT_INT(5));
    DLT_LOG_ID(c, DLT_LOG_WARN, 78, DLT_BOOL(1), DLT_UINT16(300), DLT_FLOAT64(0.5), DLT_RAW("ab", 2), DLT_UTF8("u"));
    DLT_LOG_ID(c, DLT_LOG_WARN, 79, DLT_INT_ATTR(6, "name", "unit"), DLT_STRING_ATTR("text", "name"), DLT_BOOL_ATTR(0, "name"));
    DLT_LOG_ID(c, DLT_LOG_WARN, 80, DLT_HEX16(0x1234), DLT_RAW_ATTR("abc", 3, "name"), DLT_PTR((void *)16));
    DLT_LOG_ID(c, DLT_LOG_WARN, 0x01020304, (void)0);
    DLT_LOG_STRING(c, DLT_LOG_INFO, "not made");
    DLT_LOG(c, DLT_LOG_INFO, DLT_STRING("verbose all the same"));
    DLT_VERBOSE_MODE();
}

static void filtered(void) {
    DltContext quiet;
    DLT_REGISTER_CONTEXT_LL_TS(quiet, "QUIE", "quiet", DLT_LOG_ERROR, DLT_TRACE_STATUS_OFF);
    DLT_LOG(quiet, DLT_LOG_WARN, DLT_STRING("filtered"));
    DLT_LOG_STRING(quiet, DLT_LOG_INFO, "filtered in the program");
    DLT_LOG(quiet, DLT_LOG_ERROR, DLT_STRING("passes"));
    DLT_LOG(quiet, DLT_LOG_OFF, DLT_STRING("off"));
    DLT_UNREGISTER_CONTEXT(quiet);
}

int main(void) {
    DltContextData log;
    char made[] = {0x41, 0, 0, 0, 42};
    DLT_REGISTER_APP("CALL", "calls");
    DLT_REGISTER_CONTEXT_LL_TS(c, "TEST", "each kind", DLT_LOG_VERBOSE, DLT_TRACE_STATUS_OFF);
    numbers();
    named_numbers();
    texts();
    bytes();
    too_long();
    whole();
    with_ids();
    DLT_LOG_TS(c, DLT_LOG_INFO, 12345, DLT_STRING("time"));
    DLT_LOG_ID_TS(c, DLT_LOG_INFO, 9, 54321, DLT_STRING("time"));
    if (dlt_user_log_write_start_w_given_buffer(&c, &log, DLT_LOG_INFO, made, sizeof made, 1) == DLT_RETURN_TRUE)
        dlt_user_log_write_finish_w_given_buffer(&log);
    filtered();
    DLT_UNREGISTER_CONTEXT(c);
    DLT_UNREGISTER_APP();
    return 0;
}
