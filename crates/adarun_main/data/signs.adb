pragma Profile (Ravenscar);
with Control_IO; use Control_IO;
package Signs is
   procedure Bounds;
   procedure Products;
end Signs;
package body Signs is
   procedure Products is
   begin
      Put ("-2*3", -2 * 3);
      Put ("(-2)*(-3)", (-2) * (-3));
      Put ("1-2-3", 1 - 2 - 3);
   end Products;
   -- The largest value and the least one.
   procedure Bounds is
   begin
      Put ("last", 9_223_372_036_854_775_807);
      Put ("first", -9_223_372_036_854_775_807 - 1);
   end Bounds;
end Signs;
with Signs;
procedure Main is
begin
   Signs.Products;
   Signs.Bounds;
   null;
   Signs.Products;
end Main;
