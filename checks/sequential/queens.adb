--  The six queens' problem by going back, and the towers of Hanoi.
pragma Profile (Ravenscar);
pragma Partition_Elaboration_Policy (Sequential);
with Control_IO; use Control_IO;
package App is
   Size : constant Integer := 6;
   subtype Column is Integer range 1 .. Size;
   subtype Peg is Integer range 1 .. 3;
   type Columns is array (Column) of Integer;
   type Lines is array (Column) of Boolean;
   type Falling is array (-5 .. 5) of Boolean;
   type Rising is array (2 .. 12) of Boolean;
   type Board is record
      Queen : Columns;
      Used  : Lines;
      Down  : Falling;
      Up    : Rising;
   end record;
   type Heights is array (Peg) of Natural;
   procedure Run;
end App;
package body App is
   B         : Board;
   Solutions : Natural := 0;
   Tried     : Natural := 0;
   Moves     : Natural := 0;
   Height    : Heights;

   procedure Set (C : Column; L : Column; Is_Used : Boolean) is
   begin
      B.Queen (C) := (if Is_Used then L else 0);
      B.Used (L) := Is_Used;
      B.Down (L - C) := Is_Used;
      B.Up (L + C) := Is_Used;
   end Set;

   function Is_Free (C : Column; L : Column) return Boolean is
   begin
      return not (B.Used (L) or B.Down (L - C) or B.Up (L + C));
   end Is_Free;

   procedure Show is
      Number : Integer := 0;
   begin
      for C in Column'First .. Column'Last loop
         Number := Number * 10 + B.Queen (C);
      end loop;
      Put ("queens", Number);
   end Show;

   procedure Place_From (C : Column) is
   begin
      for L in Column'First .. Column'Last loop
         Tried := Tried + 1;
         if Is_Free (C, L) then
            Set (C, L, True);
            if C = Size then
               Solutions := Solutions + 1;
               Show;
            else
               Place_From (C + 1);
            end if;
            Set (C, L, False);
         end if;
      end loop;
   end Place_From;

   procedure Clear is
   begin
      for C in Column'First .. Column'Last loop
         B.Used (C) := False;
         B.Queen (C) := 0;
      end loop;
      for D in B.Down'First .. B.Down'Last loop
         B.Down (D) := False;
      end loop;
      for U in Rising'First .. Rising'Last loop
         B.Up (U) := False;
      end loop;
   end Clear;

   procedure Move (Disks : Natural; From : Peg; To : Peg) is
      Other : constant Peg := 6 - From - To;
   begin
      if Disks > 0 then
         Move (Disks - 1, From, Other);
         Moves := Moves + 1;
         Height (From) := Height (From) - 1;
         Height (To) := Height (To) + 1;
         if Disks >= 4 then
            Put ("heights", Height (1) * 100 + Height (2) * 10 + Height (3));
         end if;
         Move (Disks - 1, Other, To);
      end if;
   end Move;

   procedure Run is
   begin
      Clear;
      Place_From (1);
      Put ("solutions", Solutions);
      Put ("tried", Tried);
      Height (1) := 6;
      Height (2) := 0;
      Height (3) := 0;
      Move (6, 1, 3);
      Put ("moves", Moves);
   end Run;
end App;
with App;
procedure Main is
begin
   App.Run;
end Main;
