#!/usr/bin/env python3
"""Writes a source whose run takes about ten million steps: 5,000 calls of a procedure that adds 1,000 numbers."""
TERMS = 1000
CALLS = 5000
print(f"""pragma Profile (Ravenscar);
with Ada.Real_Time; use Ada.Real_Time;
with Control_IO; use Control_IO;
package P is
   procedure R;
end P;
package body P is
procedure R is begin Put ("x", {'+'.join(['1'] * TERMS)}); end R;
end P;
with P;
procedure M is begin""")
print('\n'.join(['P.R;'] * CALLS))
print('end M;')
