--  Samples channel 1 every 10 milliseconds, five times. An alarm is written where the value has passed the limit, and the next sample comes sooner then.
pragma Profile (Ravenscar);
pragma Partition_Elaboration_Policy (Sequential);
with Ada.Real_Time; use Ada.Real_Time;
with Control_IO; use Control_IO;
package App is
   Limit : constant Integer := 80;
   Period : constant Time_Span := Milliseconds (10);
   Short : constant Time_Span := Milliseconds (2);
   Next : Time := Clock;
   Alarms : Integer := 0;
   procedure Sample (Value : in out Integer);
   procedure Run;
end App;
package body App is
   procedure Sample (Value : in out Integer) is
   begin
      Value := Read (1);
      Put ("value", Value);
      if Value > Limit then
         Alarms := Alarms + 1;
         Put ("alarm", Alarms);
         Next := Next + Short;
      else
         Next := Next + Period;
      end if;
      delay until Next;
   end Sample;
   procedure Run is
      Value : Integer := 0;
   begin
      for I in 1 .. 5 loop
         Sample (Value);
      end loop;
      Put ("last", Value);
   end Run;
end App;
with App;
procedure Main is
begin
   App.Run;
end Main;
