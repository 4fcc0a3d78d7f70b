--  Exceptions in declarations, initial values, conditions, bounds, choices, actual parameters, copies back, and in functions: which handler takes them, and what
--  variables have then.
pragma Profile (Ravenscar);
pragma Partition_Elaboration_Policy (Sequential);
with Control_IO; use Control_IO;
package App is
   Refused : exception;
   subtype Digit is Integer range 0 .. 9;
   type Row is array (1 .. 3) of Digit;
   type Pair is record Key : Digit; Cells : Row; end record;
   procedure Run;
end App;
package body App is
   function Inverse (V : Integer) return Integer is
   begin
      return 100 / V;
   end Inverse;

   function Twice (V : Integer) return Digit is
   begin
      return 2 * V;
   end Twice;

   procedure Declaring (V : Integer) is
      Outer : Digit := 1;
   begin
      declare
         Inner : Digit := V;
      begin
         Put ("inner", Inner);
         Inner := Inner + 5;
         Put ("sum", Inner);
      exception
         when Constraint_Error =>
            Put ("inner_taken", Inner);
            Outer := Inner;
      end;
      Put ("outer", Outer);
   exception
      when Constraint_Error =>
         Put ("outer_taken", Outer);
   end Declaring;

   procedure Body_Declaring (V : Integer) is
      Share : Integer := Inverse (V);
      Whole : Digit := Share / 10;
   begin
      Put ("whole", Whole);
      raise Refused;
   exception
      when Refused =>
         Put ("refused", Share);
      when others =>
         Put ("not_reached", V);
   end Body_Declaring;

   procedure Give (Fails : Boolean; A : out Integer; B : in out Digit; C : out Row) is
   begin
      A := 50;
      B := 7;
      C (1) := 1;
      C (2) := 2;
      C (3) := 3;
      if Fails then
         raise Refused;
      end if;
   end Give;

   procedure Show (V : Row) is
   begin
      Put ("row", V (1) * 100 + V (2) * 10 + V (3));
   end Show;

   procedure Copying is
      A : Integer := 4;
      D : Digit := 4;
      B : Digit := 5;
      R : Row;
      P : Pair;
   begin
      for I in 1 .. 3 loop
         R (I) := 9;
         P.Cells (I) := 8;
      end loop;
      P.Key := 6;
      begin
         Give (True, A, B, R);
         Put ("not_reached", 0);
      exception
         when Refused =>
            Put ("a", A);
            Put ("b", B);
      end;
      begin
         Give (False, A, P.Cells (2), R);
         Put ("a", A);
         Show (R);
         Show (P.Cells);
         Give (False, D, P.Key, P.Cells);
         Put ("not_reached", 0);
      exception
         when Constraint_Error =>
            Put ("d", D);
            Put ("key", P.Key / 10);
      end;
      begin
         Give (False, A, R (Twice (2)), R);
         Put ("not_reached", 0);
      exception
         when others =>
            Put ("index", A);
      end;
   end Copying;

   procedure Evaluating (Which : Integer) is
      R : Row;
      Zero : Integer := 0;
   begin
      for I in 1 .. 3 loop
         R (I) := I;
      end loop;
      case Which is
         when 1 =>
            if Inverse (Zero) > 0 then
               Put ("not_reached", 1);
            else
               Put ("not_reached", 2);
            end if;
         when 2 =>
            while Inverse (2 - Zero) > 0 loop
               Zero := Zero + 1;
               Put ("zero", Zero);
            end loop;
         when 3 =>
            for I in Inverse (50) .. Inverse (Zero) loop
               Put ("not_reached", I);
            end loop;
         when 4 =>
            case Inverse (Which - 4) is
               when 0 =>
                  Put ("not_reached", 3);
               when others =>
                  Put ("not_reached", 4);
            end case;
         when 5 =>
            R (2) := Twice (R (3) + 2);
            Show (R);
         when 6 =>
            R (Twice (R (2))) := 5;
            Show (R);
         when 7 =>
            Zero := Digit (Inverse (5));
         when others =>
            Put ("others", Inverse (R (Which - 6)) mod 7);
      end case;
   exception
      when Constraint_Error =>
         Show (R);
         Put ("zero", Zero);
   end Evaluating;

   procedure Run is
   begin
      for I in -1 .. 5 loop
         Declaring (3 * I);
      end loop;
      for I in 0 .. 3 loop
         begin
            Body_Declaring (I);
         exception
            when Constraint_Error =>
               Put ("declaration", I);
            when Refused =>
               Put ("not_reached", I);
         end;
      end loop;
      Body_Declaring (20);
      Copying;
      for I in 1 .. 9 loop
         Evaluating (I);
      end loop;
      raise Refused;
   end Run;
end App;
with App;
procedure Main with Priority => 3 is
begin
   App.Run;
end Main;
