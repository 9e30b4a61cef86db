/* The 12 words that stand for a control message: its type, then its fields in carried order, zeros to the end. A string is two
 * words: its place (..._AT, counted from the start of the message read, or of the strings given to rail_pdu_write) and its length
 * in bytes. Included by rail.h. */
#ifndef RAIL_MESSAGES_H
#define RAIL_MESSAGES_H

#include <stdint.h>
#include <string.h>

#define RAIL_WORDS 12
#define RAIL_WORD_TYPE 0 /* TS_RAIL_ORDER_... */

/* A message has at most this many bytes: Execute with three strings of the greatest length. */
#define RAIL_MESSAGE_MAX 17052
#define RAIL_EXE_OR_FILE_MAX 520
#define RAIL_WORKING_DIR_MAX 520
#define RAIL_ARGUMENTS_MAX 16000
#define RAIL_APPLICATION_ID_SIZE 520
#define RAIL_COLOR_SCHEME_MAX 520

/* TS_RAIL_ORDER_EXEC */
#define RAIL_WORD_EXEC_FLAGS 1
#define RAIL_WORD_EXEC_EXE_OR_FILE_AT 2
#define RAIL_WORD_EXEC_EXE_OR_FILE_LENGTH 3
#define RAIL_WORD_EXEC_WORKING_DIR_AT 4
#define RAIL_WORD_EXEC_WORKING_DIR_LENGTH 5
#define RAIL_WORD_EXEC_ARGUMENTS_AT 6
#define RAIL_WORD_EXEC_ARGUMENTS_LENGTH 7
/* TS_RAIL_ORDER_ACTIVATE */
#define RAIL_WORD_ACTIVATE_WINDOW_ID 1
#define RAIL_WORD_ACTIVATE_ENABLED 2 /* 0 or 1 */
/* TS_RAIL_ORDER_SYSCOMMAND */
#define RAIL_WORD_SYSCOMMAND_WINDOW_ID 1
#define RAIL_WORD_SYSCOMMAND_COMMAND 2 /* SC_... */
/* TS_RAIL_ORDER_HANDSHAKE */
#define RAIL_WORD_HANDSHAKE_BUILD_NUMBER 1
/* TS_RAIL_ORDER_NOTIFY_EVENT */
#define RAIL_WORD_NOTIFY_EVENT_WINDOW_ID 1
#define RAIL_WORD_NOTIFY_EVENT_NOTIFY_ICON_ID 2
#define RAIL_WORD_NOTIFY_EVENT_MESSAGE 3 /* WM_... or NIN_... */
/* TS_RAIL_ORDER_WINDOWMOVE; the four are coordinates */
#define RAIL_WORD_WINDOWMOVE_WINDOW_ID 1
#define RAIL_WORD_WINDOWMOVE_LEFT 2
#define RAIL_WORD_WINDOWMOVE_TOP 3
#define RAIL_WORD_WINDOWMOVE_RIGHT 4
#define RAIL_WORD_WINDOWMOVE_BOTTOM 5
/* TS_RAIL_ORDER_LOCALMOVESIZE; the last two are coordinates */
#define RAIL_WORD_LOCALMOVESIZE_WINDOW_ID 1
#define RAIL_WORD_LOCALMOVESIZE_IS_START 2 /* 0 or 1 */
#define RAIL_WORD_LOCALMOVESIZE_TYPE 3     /* RAIL_WMSZ_... */
#define RAIL_WORD_LOCALMOVESIZE_POS_X 4
#define RAIL_WORD_LOCALMOVESIZE_POS_Y 5
/* TS_RAIL_ORDER_MINMAXINFO; MaxPosX and MaxPosY are coordinates */
#define RAIL_WORD_MINMAXINFO_WINDOW_ID 1
#define RAIL_WORD_MINMAXINFO_MAX_WIDTH 2
#define RAIL_WORD_MINMAXINFO_MAX_HEIGHT 3
#define RAIL_WORD_MINMAXINFO_MAX_POS_X 4
#define RAIL_WORD_MINMAXINFO_MAX_POS_Y 5
#define RAIL_WORD_MINMAXINFO_MIN_TRACK_WIDTH 6
#define RAIL_WORD_MINMAXINFO_MIN_TRACK_HEIGHT 7
#define RAIL_WORD_MINMAXINFO_MAX_TRACK_WIDTH 8
#define RAIL_WORD_MINMAXINFO_MAX_TRACK_HEIGHT 9
/* TS_RAIL_ORDER_CLIENTSTATUS */
#define RAIL_WORD_CLIENTSTATUS_FLAGS 1
/* TS_RAIL_ORDER_SYSMENU; the last two are coordinates */
#define RAIL_WORD_SYSMENU_WINDOW_ID 1
#define RAIL_WORD_SYSMENU_LEFT 2
#define RAIL_WORD_SYSMENU_TOP 3
/* TS_RAIL_ORDER_GET_APPID_REQ */
#define RAIL_WORD_GET_APPID_REQ_WINDOW_ID 1
/* TS_RAIL_ORDER_GET_APPID_RESP */
#define RAIL_WORD_GET_APPID_RESP_WINDOW_ID 1
#define RAIL_WORD_GET_APPID_RESP_APPLICATION_ID_AT 2
#define RAIL_WORD_GET_APPID_RESP_APPLICATION_ID_LENGTH 3
/* TS_RAIL_ORDER_EXEC_RESULT */
#define RAIL_WORD_EXEC_RESULT_FLAGS 1
#define RAIL_WORD_EXEC_RESULT_EXEC_RESULT 2 /* RAIL_EXEC_... */
#define RAIL_WORD_EXEC_RESULT_RAW_RESULT 3
#define RAIL_WORD_EXEC_RESULT_EXE_OR_FILE_AT 4
#define RAIL_WORD_EXEC_RESULT_EXE_OR_FILE_LENGTH 5

/* TS_RAIL_ORDER_SYSPARAM: the setting, then its data */
#define RAIL_WORD_SYSPARAM_SYSTEM_PARAM 1 /* SPI_... or RAIL_SPI_... */
#define RAIL_WORD_SYSPARAM_VALUE 2        /* 0 to 255; of the settings whose body is one byte */
#define RAIL_WORD_SYSPARAM_LEFT 2         /* these four of SPI_SETWORKAREA, RAIL_SPI_TASKBARPOS and RAIL_SPI_DISPLAYCHANGE */
#define RAIL_WORD_SYSPARAM_TOP 3
#define RAIL_WORD_SYSPARAM_RIGHT 4
#define RAIL_WORD_SYSPARAM_BOTTOM 5
#define RAIL_WORD_SYSPARAM_FLAGS 2 /* these three of SPI_SETHIGHCONTRAST */
#define RAIL_WORD_SYSPARAM_COLOR_SCHEME_AT 3
#define RAIL_WORD_SYSPARAM_COLOR_SCHEME_LENGTH 4
/* TS_RAIL_ORDER_HANDSHAKE_EX */
#define RAIL_WORD_HANDSHAKE_EX_BUILD_NUMBER 1
#define RAIL_WORD_HANDSHAKE_EX_FLAGS 2 /* TS_RAIL_ORDER_HANDSHAKEEX_FLAGS_... */

/* A word that is a coordinate holds a number from -32768 to 32767 in two's complement, sign-extended to 32 bits: FFFFFF9C is -100.
 * Any other word there (0000FF9C) stands for no record, and rail_pdu_write refuses it with 8. This is the number of such a word. */
static inline int32_t rail_word_coordinate(uint32_t word) {
    return word < 0x80000000u ? (int32_t)word : (int32_t)(word - 0x80000000u) - 0x7FFFFFFF - 1;
}

/* The word of a coordinate. */
static inline uint32_t rail_coordinate_word(int32_t coordinate) {
    return (uint32_t)coordinate;
}

#endif
