--  A machine driven by a table reads decimal numbers as "-12.5", character by character, and tells which texts are none.
pragma Profile (Ravenscar);
pragma Partition_Elaboration_Policy (Sequential);
with Control_IO; use Control_IO;
package App is
   type Class is range 0 .. 3;
   Sign  : constant Class := 0;
   Digit : constant Class := 1;
   Point : constant Class := 2;
   Other : constant Class := 3;

   type State is range 0 .. 5;
   Start    : constant State := 0;
   Signed   : constant State := 1;
   Whole    : constant State := 2;
   Dotted   : constant State := 3;
   Fraction : constant State := 4;
   Failed   : constant State := 5;

   type Row is array (Class) of State;
   type Table is array (State) of Row;
   type Result is record
      At_End   : State;
      Value    : Integer;
      Decimals : Natural;
   end record;

   procedure Run;
end App;
package body App is
   Next    : Table;
   Current : Result;
   Minus   : Boolean := False;

   procedure Fill_Table is
   begin
      for S in State'First .. State'Last loop
         for C in Class'First .. Class'Last loop
            Next (S) (C) := Failed;
         end loop;
      end loop;
      Next (Start) (Sign) := Signed;
      Next (Start) (Digit) := Whole;
      Next (Signed) (Digit) := Whole;
      Next (Whole) (Digit) := Whole;
      Next (Whole) (Point) := Dotted;
      Next (Dotted) (Digit) := Fraction;
      Next (Fraction) := Next (Dotted);
   end Fill_Table;

   procedure Classify (Code : in Integer; C : out Class) is
   begin
      case Code is
         when 43 | 45 => C := Sign;
         when 46 => C := Point;
         when 48 | 49 | 50 | 51 | 52 | 53 | 54 | 55 | 56 | 57 => C := Digit;
         when others => C := Other;
      end case;
   end Classify;

   procedure Read_Character (Code : Integer; R : in out Result) is
      C : Class := Other;
   begin
      Classify (Code, C);
      R.At_End := Next (R.At_End) (C);
      case R.At_End is
         when Signed => Minus := Code = 45;
         when Whole | Fraction =>
            R.Value := R.Value * 10 + (if Minus then 48 - Code else Code - 48);
            R.Decimals := (if R.At_End = Fraction then R.Decimals + 1 else 0);
         when others => null;
      end case;
   end Read_Character;

   --  Characters stand in a number, two digits each, the first one last.
   procedure Read_Text (Text : Integer) is
      Rest : Integer := Text;
   begin
      Current.At_End := Start;
      Current.Value := 0;
      Current.Decimals := 0;
      Minus := False;
      while Rest > 0 loop
         Read_Character (Rest mod 100, Current);
         Rest := Rest / 100;
      end loop;
      if Current.At_End = Whole or Current.At_End = Fraction then
         Put ("value", Current.Value);
         Put ("decimals", Current.Decimals);
      else
         Put ("failed_in", Integer (Current.At_End));
      end if;
   end Read_Text;

   procedure Run is
   begin
      Fill_Table;
      Read_Text (5049);
      Read_Text (53464945);
      Read_Text (48464857);
      Read_Text (49484850);
      Read_Text (4643);
      Read_Text (4649);
      Read_Text (49494343);
      Read_Text (55465565);
      Read_Text (0);
   end Run;
end App;
with App;
procedure Main is
begin
   App.Run;
end Main;
