--  `raise;` hands on the exception of the handler around it, through three frames; a handler's own exception goes on outside of it.
pragma Profile (Ravenscar);
pragma Partition_Elaboration_Policy (Sequential);
with Control_IO; use Control_IO;
package App is
   Low : exception;
   Middle : exception;
   High : exception;
   procedure Run;
end App;
package body App is
   Level : Integer := 0;

   procedure Third (Which : Integer) is
   begin
      Level := 3;
      if Which = 0 then
         raise Low;
      elsif Which = 1 then
         raise Middle;
      elsif Which = 2 then
         raise High;
      end if;
      Level := Level / (Which - 3);
   exception
      when Low | Middle =>
         Put ("third", Which);
         raise;
   end Third;

   procedure Second (Which : Integer) is
      Before : Integer := Level;
   begin
      Level := 2;
      Third (Which);
   exception
      when others =>
         Put ("second", Before * 10 + Level);
         begin
            if Which = 1 then
               raise High;
            end if;
            Put ("went_on", Which);
         exception
            when High =>
               Put ("high", Which);
            when Low =>
               Put ("not_reached", Which);
         end;
         raise;
   end Second;

   procedure First (Which : Integer) is
   begin
      Level := 1;
      Second (Which);
      Put ("not_reached", Which);
   exception
      when Low =>
         Put ("low", Which);
         raise Middle;
      when Middle =>
         Put ("middle", Which);
         begin
            raise;
         exception
            when Middle =>
               Put ("middle_again", Which);
               raise;
            when others =>
               Put ("not_reached", Which);
         end;
      when High =>
         Put ("high", Which);
         if Which = 2 then
            raise;
         end if;
         Put ("not_reached", Which);
      when others =>
         Put ("others", Which);
         Level := Level / (Level - Level);
   end First;

   procedure Run is
      Count : Integer := 0;
   begin
      for I in 0 .. 3 loop
         begin
            First (I);
         exception
            when Low =>
               Put ("run_low", I);
            when Middle =>
               Put ("run_middle", I);
            when Constraint_Error =>
               Put ("run_constraint", I);
            when others =>
               Put ("run_others", I);
               Count := Count + 1;
         end;
      end loop;
      Put ("count", Count);
      begin
         raise Low;
      exception
         when others =>
            begin
               raise High;
            exception
               when others =>
                  begin
                     raise Middle;
                  exception
                     when Middle =>
                        Put ("innermost", 3);
                  end;
                  raise;
            end;
      end;
   exception
      when Low =>
         Put ("not_reached", 1);
      when High =>
         Put ("end_high", 2);
         raise;
   end Run;
end App;
with App;
procedure Main with Priority => 3 is
begin
   App.Run;
end Main;
