--  A producer and a consumer share a buffer of three places, a protected object: the consumer waits at its entry while nothing is in it, and what the producer
--  brings while it is full is lost, and told.
pragma Profile (Ravenscar);
pragma Partition_Elaboration_Policy (Sequential);
with Ada.Real_Time; use Ada.Real_Time;
with Control_IO; use Control_IO;
package App is
   Capacity : constant Integer := 3;
   Burst    : constant Integer := 5;
   Rounds   : constant Integer := 3;

   subtype Place is Integer range 0 .. Capacity - 1;
   subtype Filling is Integer range 0 .. Capacity;
   type Places is array (Place) of Integer;

   protected Buffer with Priority => 12 is
      procedure Bring (Value : Integer; Done : out Boolean);
      entry Take (Value : out Integer; Left : out Filling);
   private
      Values : Places;
      First  : Place := 0;
      Count  : Filling := 0;
      Filled : Boolean := False;
   end Buffer;

   task Consumer with Priority => 10;
   task Producer with Priority => 8;
end App;
package body App is
   protected body Buffer is
      procedure Bring (Value : Integer; Done : out Boolean) is
      begin
         Done := Count < Capacity;
         if Done then
            Values ((First + Count) mod Capacity) := Value;
            Count := Count + 1;
            Filled := True;
         end if;
      end Bring;

      entry Take (Value : out Integer; Left : out Filling) when Filled is
      begin
         Value := Values (First);
         First := (First + 1) mod Capacity;
         Count := Count - 1;
         Filled := Count > 0;
         Left := Count;
      end Take;
   end Buffer;

   task body Consumer is
      Value : Integer;
      Left  : Filling;
   begin
      for I in 1 .. Rounds * Capacity + Rounds loop
         Buffer.Take (Value, Left);
         Put ("took", Value);
         if Left = 0 then
            Put ("left", Left);
         end if;
         delay until Clock + Milliseconds (3);
      end loop;
   end Consumer;

   task body Producer is
      Next  : Time := Clock;
      Value : Integer := 0;
      Done  : Boolean;
   begin
      for Round in 1 .. Rounds loop
         for I in 1 .. Burst loop
            Value := Value + 1;
            Buffer.Bring (Value, Done);
            if not Done then
               Put ("lost", Value);
            end if;
         end loop;
         Put ("burst", Round);
         Next := Next + Milliseconds (20);
         delay until Next;
      end loop;
   end Producer;
end App;
with App;
procedure Main is
begin
   null;
end Main;
