//! Names and values of MS-RDPERP (v20130722), and of its later editions for Client
//! Execute and for newer servers' window fields, as the C header `rail/protocol.h` has them. The document has no names for
//! what begins with `RAIL_SHOW`.
#![allow(missing_docs)] // a name says what it says in the document

// Capability sets (2.2.1.1).
pub const CAPSETTYPE_RAIL: u16 = 0x0017;
pub const CAPSETTYPE_WINDOW: u16 = 0x0018;
pub const TS_RAIL_LEVEL_SUPPORTED: u32 = 0x0000_0001;
pub const TS_RAIL_LEVEL_DOCKED_LANGBAR_SUPPORTED: u32 = 0x0000_0002;
pub const TS_WINDOW_LEVEL_NOT_SUPPORTED: u32 = 0x0000_0000;
pub const TS_WINDOW_LEVEL_SUPPORTED: u32 = 0x0000_0001;
pub const TS_WINDOW_LEVEL_SUPPORTED_EX: u32 = 0x0000_0002;

// Windowing alternate secondary drawing orders (2.2.1.3).
pub const TS_ALTSEC_WINDOW: u8 = 0x0B;
/// 2E.
pub const RAIL_ORDER_HEADER: u8 = TS_ALTSEC_WINDOW << 2 | 2;
pub const WINDOW_ORDER_TYPE_WINDOW: u32 = 0x0100_0000;
pub const WINDOW_ORDER_TYPE_NOTIFY: u32 = 0x0200_0000;
pub const WINDOW_ORDER_TYPE_DESKTOP: u32 = 0x0400_0000;
pub const WINDOW_ORDER_STATE_NEW: u32 = 0x1000_0000;
pub const WINDOW_ORDER_STATE_DELETED: u32 = 0x2000_0000;
pub const WINDOW_ORDER_ICON: u32 = 0x4000_0000;
pub const WINDOW_ORDER_CACHEDICON: u32 = 0x8000_0000;
/// The document has both spellings.
pub const WINDOW_ORDER_CACHED_ICON: u32 = 0x8000_0000;

// FieldsPresentFlags of a window (2.2.1.3.1.2), in carried order.
pub const WINDOW_ORDER_FIELD_OWNER: u32 = 0x0000_0002;
pub const WINDOW_ORDER_FIELD_STYLE: u32 = 0x0000_0008;
pub const WINDOW_ORDER_FIELD_SHOW: u32 = 0x0000_0010;
pub const WINDOW_ORDER_FIELD_TITLE: u32 = 0x0000_0004;
pub const WINDOW_ORDER_FIELD_CLIENTAREAOFFSET: u32 = 0x0000_4000;
pub const WINDOW_ORDER_FIELD_CLIENTAREASIZE: u32 = 0x0001_0000;
/// Of newer servers, as the next.
pub const WINDOW_ORDER_FIELD_RESIZE_MARGIN_X: u32 = 0x0000_0080;
pub const WINDOW_ORDER_FIELD_RESIZE_MARGIN_Y: u32 = 0x0800_0000;
pub const WINDOW_ORDER_FIELD_RPCONTENT: u32 = 0x0002_0000;
pub const WINDOW_ORDER_FIELD_ROOTPARENT: u32 = 0x0004_0000;
pub const WINDOW_ORDER_FIELD_WNDOFFSET: u32 = 0x0000_0800;
pub const WINDOW_ORDER_FIELD_WNDCLIENTDELTA: u32 = 0x0000_8000;
pub const WINDOW_ORDER_FIELD_WNDSIZE: u32 = 0x0000_0400;
pub const WINDOW_ORDER_FIELD_WNDRECTS: u32 = 0x0000_0100;
pub const WINDOW_ORDER_FIELD_VISOFFSET: u32 = 0x0000_1000;
pub const WINDOW_ORDER_FIELD_VISIBILITY: u32 = 0x0000_0200;
/// Of newer servers, as the next four.
pub const WINDOW_ORDER_FIELD_OVERLAY_DESCRIPTION: u32 = 0x0040_0000;
pub const WINDOW_ORDER_FIELD_TASKBAR_BUTTON: u32 = 0x0080_0000;
pub const WINDOW_ORDER_FIELD_ENFORCE_SERVER_ZORDER: u32 = 0x0008_0000;
pub const WINDOW_ORDER_FIELD_APPBAR_STATE: u32 = 0x0000_0040;
pub const WINDOW_ORDER_FIELD_APPBAR_EDGE: u32 = 0x0000_0001;
/// Beside an icon or cached icon: the big one.
pub const WINDOW_ORDER_FIELD_ICON_BIG: u32 = 0x0000_2000;
/// Of newer servers, beside an icon or cached icon: the overlay icon.
pub const WINDOW_ORDER_FIELD_ICON_OVERLAY: u32 = 0x0010_0000;
/// Of newer servers, beside fields: no overlay icon.
pub const WINDOW_ORDER_FIELD_ICON_OVERLAY_NULL: u32 = 0x0020_0000;

// ShowState; the document gives the values and no names.
pub const RAIL_SHOW_HIDDEN: u8 = 0x00;
pub const RAIL_SHOW_MINIMIZED: u8 = 0x02;
pub const RAIL_SHOW_MAXIMIZED: u8 = 0x03;
pub const RAIL_SHOW_NORMAL: u8 = 0x05;

// FieldsPresentFlags of a notification icon (2.2.1.3.2.2), in carried order.
pub const WINDOW_ORDER_FIELD_NOTIFY_VERSION: u32 = 0x0000_0008;
pub const WINDOW_ORDER_FIELD_NOTIFY_TIP: u32 = 0x0000_0001;
pub const WINDOW_ORDER_FIELD_NOTIFY_INFO_TIP: u32 = 0x0000_0002;
pub const WINDOW_ORDER_FIELD_NOTIFY_STATE: u32 = 0x0000_0004;

// InfoFlags of a balloon tooltip (2.2.1.3.2.2.3).
pub const NIIF_NONE: u32 = 0x0000_0000;
pub const NIIF_INFO: u32 = 0x0000_0001;
pub const NIIF_WARNING: u32 = 0x0000_0002;
pub const NIIF_ERROR: u32 = 0x0000_0003;
pub const NIIF_NOSOUND: u32 = 0x0000_0010;
pub const NIIF_LARGE_ICON: u32 = 0x0000_0020;

// FieldsPresentFlags of the desktop (2.2.1.3.3.2).
pub const WINDOW_ORDER_FIELD_DESKTOP_NONE: u32 = 0x0000_0001;
pub const WINDOW_ORDER_FIELD_DESKTOP_HOOKED: u32 = 0x0000_0002;
pub const WINDOW_ORDER_FIELD_DESKTOP_ARC_COMPLETED: u32 = 0x0000_0004;
pub const WINDOW_ORDER_FIELD_DESKTOP_ARC_BEGAN: u32 = 0x0000_0008;
pub const WINDOW_ORDER_FIELD_DESKTOP_ZORDER: u32 = 0x0000_0010;
pub const WINDOW_ORDER_FIELD_DESKTOP_ACTIVEWND: u32 = 0x0000_0020;

// orderType of a control message (2.2.2.1): the kinds that are read and written.
pub const TS_RAIL_ORDER_EXEC: u16 = 0x0001;
pub const TS_RAIL_ORDER_ACTIVATE: u16 = 0x0002;
pub const TS_RAIL_ORDER_SYSPARAM: u16 = 0x0003;
pub const TS_RAIL_ORDER_SYSCOMMAND: u16 = 0x0004;
pub const TS_RAIL_ORDER_HANDSHAKE: u16 = 0x0005;
pub const TS_RAIL_ORDER_NOTIFY_EVENT: u16 = 0x0006;
pub const TS_RAIL_ORDER_WINDOWMOVE: u16 = 0x0008;
pub const TS_RAIL_ORDER_LOCALMOVESIZE: u16 = 0x0009;
pub const TS_RAIL_ORDER_MINMAXINFO: u16 = 0x000A;
pub const TS_RAIL_ORDER_CLIENTSTATUS: u16 = 0x000B;
pub const TS_RAIL_ORDER_SYSMENU: u16 = 0x000C;
pub const TS_RAIL_ORDER_GET_APPID_REQ: u16 = 0x000E;
pub const TS_RAIL_ORDER_GET_APPID_RESP: u16 = 0x000F;
pub const TS_RAIL_ORDER_HANDSHAKE_EX: u16 = 0x0013;
pub const TS_RAIL_ORDER_EXEC_RESULT: u16 = 0x0080;

// One that is refused with 4.
pub const TS_RAIL_ORDER_LANGBARINFO: u16 = 0x000D;

// Client Information (2.2.2.2.2).
pub const TS_RAIL_CLIENTSTATUS_ALLOWLOCALMOVESIZE: u32 = 0x0000_0001;
pub const TS_RAIL_CLIENTSTATUS_AUTORECONNECT: u32 = 0x0000_0002;

// railHandshakeFlags of HandshakeEx (2.2.2.2.3).
pub const TS_RAIL_ORDER_HANDSHAKEEX_FLAGS_HIDEF: u32 = 0x0000_0001;

// SystemParam that the client sends (2.2.2.4.1), and that the server sends (2.2.2.5.1).
pub const SPI_SETDRAGFULLWINDOWS: u32 = 0x0000_0025;
pub const SPI_SETKEYBOARDCUES: u32 = 0x0000_100B;
pub const SPI_SETKEYBOARDPREF: u32 = 0x0000_0045;
pub const SPI_SETMOUSEBUTTONSWAP: u32 = 0x0000_0021;
pub const SPI_SETWORKAREA: u32 = 0x0000_002F;
pub const RAIL_SPI_TASKBARPOS: u32 = 0x0000_F000;
pub const RAIL_SPI_DISPLAYCHANGE: u32 = 0x0000_F001;
pub const SPI_SETHIGHCONTRAST: u32 = 0x0000_0043;
pub const SPI_SETSCREENSAVEACTIVE: u32 = 0x0000_0011;
pub const SPI_SETSCREENSAVESECURE: u32 = 0x0000_0077;

// Client Execute (2.2.2.3.1).
pub const TS_RAIL_EXEC_FLAG_EXPAND_WORKINGDIRECTORY: u16 = 0x0001;
/// Only beside TS_RAIL_EXEC_FLAG_FILE.
pub const TS_RAIL_EXEC_FLAG_TRANSLATE_FILES: u16 = 0x0002;
pub const TS_RAIL_EXEC_FLAG_FILE: u16 = 0x0004;
pub const TS_RAIL_EXEC_FLAG_EXPAND_ARGUMENTS: u16 = 0x0008;
pub const TS_RAIL_EXEC_FLAG_APP_USER_MODEL_ID: u16 = 0x0010;

// ExecResult of Server Execute Result (2.2.2.3.2).
pub const RAIL_EXEC_S_OK: u16 = 0x0000;
pub const RAIL_EXEC_E_HOOK_NOT_LOADED: u16 = 0x0001;
pub const RAIL_EXEC_E_DECODE_FAILED: u16 = 0x0002;
pub const RAIL_EXEC_E_NOT_IN_ALLOWLIST: u16 = 0x0003;
pub const RAIL_EXEC_E_FILE_NOT_FOUND: u16 = 0x0005;
pub const RAIL_EXEC_E_FAIL: u16 = 0x0006;
pub const RAIL_EXEC_E_SESSION_LOCKED: u16 = 0x0007;

// Command of System Command (2.2.2.6.3).
pub const SC_SIZE: u16 = 0xF000;
pub const SC_MOVE: u16 = 0xF010;
pub const SC_MINIMIZE: u16 = 0xF020;
pub const SC_MAXIMIZE: u16 = 0xF030;
pub const SC_CLOSE: u16 = 0xF060;
pub const SC_KEYMENU: u16 = 0xF100;
pub const SC_RESTORE: u16 = 0xF120;
pub const SC_DEFAULT: u16 = 0xF160;

// Message of Notify Event (2.2.2.6.4).
pub const WM_CONTEXTMENU: u32 = 0x0000_007B;
pub const WM_LBUTTONDOWN: u32 = 0x0000_0201;
pub const WM_LBUTTONUP: u32 = 0x0000_0202;
pub const WM_LBUTTONDBLCLK: u32 = 0x0000_0203;
pub const WM_RBUTTONDOWN: u32 = 0x0000_0204;
pub const WM_RBUTTONUP: u32 = 0x0000_0205;
pub const WM_RBUTTONDBLCLK: u32 = 0x0000_0206;
pub const NIN_SELECT: u32 = 0x0000_0400;
pub const NIN_KEYSELECT: u32 = 0x0000_0401;
pub const NIN_BALLOONSHOW: u32 = 0x0000_0402;
pub const NIN_BALLOONHIDE: u32 = 0x0000_0403;
pub const NIN_BALLOONTIMEOUT: u32 = 0x0000_0404;
pub const NIN_BALLOONUSERCLICK: u32 = 0x0000_0405;

// MoveSizeType of Move/Size (2.2.2.7.2).
pub const RAIL_WMSZ_LEFT: u16 = 0x0001;
pub const RAIL_WMSZ_RIGHT: u16 = 0x0002;
pub const RAIL_WMSZ_TOP: u16 = 0x0003;
pub const RAIL_WMSZ_TOPLEFT: u16 = 0x0004;
pub const RAIL_WMSZ_TOPRIGHT: u16 = 0x0005;
pub const RAIL_WMSZ_BOTTOM: u16 = 0x0006;
pub const RAIL_WMSZ_BOTTOMLEFT: u16 = 0x0007;
pub const RAIL_WMSZ_BOTTOMRIGHT: u16 = 0x0008;
pub const RAIL_WMSZ_MOVE: u16 = 0x0009;
pub const RAIL_WMSZ_KEYMOVE: u16 = 0x000A;
pub const RAIL_WMSZ_KEYSIZE: u16 = 0x000B;
