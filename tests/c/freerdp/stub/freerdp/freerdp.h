/* The real one has the types that the other two need, and the channel's flags. */
#define CHANNEL_FLAG_FIRST 0x01
#define CHANNEL_FLAG_LAST 0x02
