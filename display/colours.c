#include "colours.h"

#define RGB(n) { ((n) >> 16 & 255) / 255.0, ((n) >> 8 & 255) / 255.0, ((n) & 255) / 255.0, 1.0 }

const palette by_day = {
    .ground = RGB(0xFFFFFF), .text = RGB(0x14161A), .grey = RGB(0x666B75), .rule = RGB(0xC9CDD3), .tint = RGB(0xF4F6F9),
    .chart = { RGB(0x004C8C), RGB(0xC74A00) },
    .paired = RGB(0xE4EEF7), .under = RGB(0xFDE68A),
    .shading = RGB(0x555C66), .mark = RGB(0x000000),
    .ring = { RGB(0x000000), RGB(0x1B8046), RGB(0xC000C0), RGB(0x4A4A4A) },
    .warning = RGB(0xA3001E),
};

const palette by_night = {
    .ground = RGB(0x090B0F), .text = RGB(0xCFD0C6), .grey = RGB(0x85888D), .rule = RGB(0x3A3E45), .tint = RGB(0x11151B),
    .chart = { RGB(0x5C9EDB), RGB(0xE68533) },
    .paired = RGB(0x101B28), .under = RGB(0x4D400D),
    .shading = RGB(0x6F7C8C), .mark = RGB(0xFFF6D6),
    .ring = { RGB(0xFFF6D6), RGB(0x20D080), RGB(0xFFB4F0), RGB(0x9C9C9C) },
    .warning = RGB(0xFF7A70),
};
