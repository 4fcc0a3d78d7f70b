--  A calculator with a stack runs coded programs. What goes wrong in one of them is an exception: it is told, the stack is emptied, and the next program runs.
pragma Profile (Ravenscar);
pragma Partition_Elaboration_Policy (Sequential);
with Control_IO; use Control_IO;
package App is
   Overflow    : exception;
   Underflow   : exception;
   Bad_Command : exception;
   Halted      : exception;

   Push_Next : constant Integer := 1;
   Add       : constant Integer := 2;
   Subtract  : constant Integer := 3;
   Multiply  : constant Integer := 4;
   Divide    : constant Integer := 5;
   Show      : constant Integer := 6;
   Halt      : constant Integer := 7;

   subtype Depth is Integer range 0 .. 4;
   type Words is array (1 .. 4) of Integer;
   type Commands is array (1 .. 12) of Integer;

   procedure Run;
end App;
package body App is
   Stack  : Words;
   Top    : Depth := 0;
   Failed : Natural := 0;

   procedure Push (Value : Integer) is
   begin
      Top := Top + 1;
      Stack (Top) := Value;
   exception
      when Constraint_Error =>
         raise Overflow;
   end Push;

   procedure Pop (Value : out Integer) is
   begin
      if Top = 0 then
         raise Underflow;
      end if;
      Value := Stack (Top);
      Top := Top - 1;
   end Pop;

   procedure Apply (Command : Integer) is
      Left  : Integer := 0;
      Right : Integer := 0;
   begin
      Pop (Right);
      Pop (Left);
      case Command is
         when Add =>
            Push (Left + Right);
         when Subtract =>
            Push (Left - Right);
         when Multiply =>
            Push (Left * Right);
         when Divide =>
            Push (Left / Right);
         when others =>
            raise Bad_Command;
      end case;
   exception
      when Constraint_Error =>
         Put ("no_value", Left);
         raise;
   end Apply;

   procedure Execute (Program : Commands) is
      Place : Integer := 1;
   begin
      Top := 0;
      loop
         case Program (Place) is
            when Push_Next =>
               Place := Place + 1;
               Push (Program (Place));
            when Show =>
               Put ("top", Stack (Top));
            when Halt =>
               raise Halted;
            when others =>
               Apply (Program (Place));
         end case;
         Place := Place + 1;
      end loop;
   exception
      when Halted =>
         Put ("left", Top);
      when Overflow | Underflow =>
         Put ("stack_at", Place);
         Failed := Failed + 1;
      when others =>
         Put ("fault_at", Place);
         Failed := Failed + 1;
         if Failed > 3 then
            raise;
         end if;
   end Execute;

   procedure Fill (Program : out Commands; A : Integer; B : Integer; Command : Integer) is
   begin
      Program (1) := Push_Next;
      Program (2) := A;
      Program (3) := Push_Next;
      Program (4) := B;
      Program (5) := Command;
      Program (6) := Show;
      for I in 7 .. 12 loop
         Program (I) := Halt;
      end loop;
   end Fill;

   procedure Run is
      Program : Commands;
   begin
      Fill (Program, 20, 3, Subtract);
      Execute (Program);
      Fill (Program, 6, 7, Multiply);
      Program (7) := Multiply;
      Execute (Program);
      Fill (Program, 1, 0, Divide);
      Execute (Program);
      Fill (Program, 1, 0, 99);
      Execute (Program);
      for I in Program'First .. Program'Last loop
         Program (I) := Push_Next;
      end loop;
      Execute (Program);
      Fill (Program, 8, 2, Divide);
      Execute (Program);
      Fill (Program, 3, 4, 0);
      Execute (Program);
      Put ("not_reached", Failed);
   exception
      when Bad_Command =>
         Put ("failed", Failed);
   end Run;
end App;
with App;
procedure Main is
begin
   App.Run;
end Main;
