--  Handlers of blocks and of bodies: several choices, `others`, one within another, and exceptions that come out of calls, loops and alternatives.
pragma Profile (Ravenscar);
pragma Partition_Elaboration_Policy (Sequential);
with Control_IO; use Control_IO;
package App is
   Empty : exception;
   Full : exception;
   Broken : exception;
   subtype Count is Integer range 0 .. 3;
   procedure Run;
end App;
package body App is
   Depth : Count := 0;

   procedure Push is
   begin
      if Depth = 3 then
         raise Full;
      end if;
      Depth := Depth + 1;
      Put ("depth", Depth);
   end Push;

   procedure Pop is
   begin
      if Depth = 0 then
         raise Empty;
      end if;
      Depth := Depth - 1;
      Put ("depth", Depth);
   end Pop;

   procedure Select_One (Which : Integer) is
   begin
      case Which is
         when 1 =>
            raise Empty;
         when 2 =>
            raise Full;
         when 3 =>
            raise Broken;
         when 4 =>
            Put ("quotient", 10 / (Which - 4));
         when 5 =>
            raise Program_Error;
         when others =>
            Put ("none", Which);
      end case;
      Put ("went_on", Which);
   exception
      when Empty | Full =>
         Put ("empty_or_full", Which);
      when Constraint_Error =>
         Put ("constraint", Which);
      when others =>
         Put ("others", Which);
   end Select_One;

   procedure Loops is
      Turns : Integer := 0;
   begin
      for I in 1 .. 10 loop
         begin
            for J in reverse 0 .. 3 loop
               Turns := Turns + 1;
               Put ("share", (10 * I) / J);
            end loop;
            Put ("not_reached", I);
         exception
            when Constraint_Error =>
               Put ("turn", I);
               exit when I = 3;
         end;
      end loop;
      Put ("turns", Turns);
      while Turns > 0 loop
         begin
            Turns := Turns - 5;
            if Turns < 4 then
               raise Broken;
            end if;
            Put ("left", Turns);
         exception
            when Empty =>
               Put ("not_reached", Turns);
            when Broken =>
               Put ("broken", Turns);
               return;
         end;
      end loop;
      Put ("not_reached", Turns);
   end Loops;

   procedure Nested (Which : Integer) is
   begin
      Put ("begin", Which);
      begin
         begin
            Select_One (Which);
            if Which = 1 then
               raise Empty;
            elsif Which = 2 then
               raise Full;
            elsif Which = 3 then
               raise Broken;
            end if;
            Put ("inner_end", Which);
         exception
            when Empty =>
               Put ("inner", Which);
               Pop;
         end;
         Put ("middle_end", Which);
      exception
         when Full =>
            Put ("middle", Which);
      end;
      Put ("outer_end", Which);
   exception
      when others =>
         Put ("outer", Which);
   end Nested;

   procedure Run is
   begin
      for I in 0 .. 6 loop
         Select_One (I);
      end loop;
      begin
         loop
            Push;
         end loop;
      exception
         when Full =>
            Put ("full", Depth);
      end;
      begin
         loop
            Pop;
         end loop;
      exception
         when Empty =>
            Put ("empty", Depth);
      end;
      Loops;
      for I in 0 .. 4 loop
         Nested (I);
      end loop;
      Depth := 1;
      Nested (1);
      begin
         null;
      exception
         when others =>
            Put ("not_reached", 0);
      end;
      Put ("done", Depth);
   end Run;
end App;
with App;
procedure Main with Priority => 3 is
begin
   App.Run;
end Main;
