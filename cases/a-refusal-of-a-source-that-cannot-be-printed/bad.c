u32 a
