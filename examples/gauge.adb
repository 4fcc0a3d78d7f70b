--  A gauge, channel 1, that tasks share by a protected object: one task stores what it reads every 10 milliseconds, another takes the last value, the highest one
--  and their number together every 25. A third one has a priority above the ceiling of the object, and its call is refused.
pragma Profile (Ravenscar);
pragma Partition_Elaboration_Policy (Sequential);
with Ada.Real_Time; use Ada.Real_Time;
with Control_IO; use Control_IO;
package App is
   Limit : constant Integer := 80;

   protected Gauge with Priority => 12 is
      procedure Store (Value : Integer);
      procedure Take (Value : out Integer; Highest : out Integer; Count : out Integer);
      function Is_High return Boolean;
   private
      Last : Integer := 0;
      Most : Integer := 0;
      Many : Integer := 0;
   end Gauge;

   task Supervisor with Priority => 14;
   task Sampler with Priority => 10;
   task Reporter with Priority => 5;
end App;
package body App is
   protected body Gauge is
      procedure Store (Value : Integer) is
      begin
         Last := Value;
         Many := Many + 1;
         if Value > Most then
            Most := Value;
         end if;
      end Store;

      procedure Take (Value : out Integer; Highest : out Integer; Count : out Integer) is
      begin
         Value := Last;
         Highest := Most;
         Count := Many;
      end Take;

      function Is_High return Boolean is
      begin
         return Last > Limit;
      end Is_High;
   end Gauge;

   task body Supervisor is
   begin
      Gauge.Store (0);
   exception
      when Program_Error => Put ("above", 14);
   end Supervisor;

   task body Sampler is
      Next : Time := Clock;
   begin
      for I in 1 .. 6 loop
         Gauge.Store (Read (1));
         if Gauge.Is_High then
            Put ("high", Read (1));
         end if;
         Next := Next + Milliseconds (10);
         delay until Next;
      end loop;
   end Sampler;

   task body Reporter is
      Next    : Time := Clock;
      Value   : Integer;
      Highest : Integer;
      Count   : Integer;
   begin
      for I in 1 .. 3 loop
         Gauge.Take (Value, Highest, Count);
         Put ("last", Value);
         Put ("most", Highest);
         Put ("count", Count);
         Next := Next + Milliseconds (25);
         delay until Next;
      end loop;
   end Reporter;
end App;
with App;
procedure Main is
begin
   null;
end Main;
