/* SPDX-License-Identifier: MIT
 * Copyright (c) 2026 the authors of komihash_rattle
 * What Windows calls when it loads the DLL. lld links none without it. */
int DllMainCRTStartup(void) { return 1; }
