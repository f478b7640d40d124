export * from "./komihash_rattle.cjs";
