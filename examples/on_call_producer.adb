--  The program of the guide for the Ravenscar profile (Burns, Dobbing, Vardanega), with numbers in place of its workloads. A regular producer does its work every
--  second; each second time it has more than it can do, and asks a producer on call, which waits for requests; each third time it wakes a reader of the log of
--  external events. These are interrupts of channel 1, whose handler releases a task that writes them to the log.
pragma Profile (Ravenscar);
pragma Partition_Elaboration_Policy (Sequential);
with Ada.Real_Time; use Ada.Real_Time;
with Control_IO; use Control_IO;
package App is
   Regular_Work : constant Integer := 75;
   On_Call_Work : constant Integer := 27;
   Rounds       : constant Integer := 7;
   Capacity     : constant Integer := 2;

   subtype Place is Integer range 0 .. Capacity - 1;
   type Places is array (Place) of Integer;

   protected Requests with Priority => 9 is
      procedure Deposit (Work : Integer; Taken : out Boolean);
      entry Extract (Work : out Integer);
   private
      Works : Places;
      First : Place := 0;
      Count : Integer := 0;
      Due   : Boolean := False;
   end Requests;

   protected Event_Queue is
      procedure Signal with Attach_Handler => 1;
      entry Wait;
   private
      Signalled : Boolean := False;
   end Event_Queue;

   protected Activation_Log with Priority => 13 is
      procedure Write;
      procedure Ask;
      entry Latest (Many : out Integer; Last : out Time);
   private
      Counter : Integer := 0;
      At_Time : Time := Clock;
      Asked   : Boolean := False;
   end Activation_Log;

   task External_Event_Server with Priority => 12;
   task Regular_Producer with Priority => 7;
   task On_Call_Producer with Priority => 5;
   task Log_Reader with Priority => 3;
end App;
package body App is
   protected body Requests is
      procedure Deposit (Work : Integer; Taken : out Boolean) is
      begin
         Taken := Count < Capacity;
         if Taken then
            Works ((First + Count) mod Capacity) := Work;
            Count := Count + 1;
            Due := True;
         end if;
      end Deposit;

      entry Extract (Work : out Integer) when Due is
      begin
         Work := Works (First);
         First := (First + 1) mod Capacity;
         Count := Count - 1;
         Due := Count > 0;
      end Extract;
   end Requests;

   protected body Event_Queue is
      procedure Signal is
      begin
         Signalled := True;
      end Signal;

      entry Wait when Signalled is
      begin
         Signalled := False;
      end Wait;
   end Event_Queue;

   protected body Activation_Log is
      procedure Write is
      begin
         Counter := Counter + 1;
         At_Time := Clock;
      end Write;

      procedure Ask is
      begin
         Asked := True;
      end Ask;

      entry Latest (Many : out Integer; Last : out Time) when Asked is
      begin
         Many := Counter;
         Last := At_Time;
         Asked := False;
      end Latest;
   end Activation_Log;

   task body External_Event_Server is
   begin
      loop
         Event_Queue.Wait;
         Activation_Log.Write;
      end loop;
   end External_Event_Server;

   task body Regular_Producer is
      Next  : Time := Clock;
      Taken : Boolean;
   begin
      for Round in 1 .. Rounds loop
         Put ("regular", Regular_Work);
         if Round mod 2 = 0 then
            Requests.Deposit (On_Call_Work + Round, Taken);
            if not Taken then
               Put ("refused", Round);
            end if;
         end if;
         if Round mod 3 = 0 then
            Activation_Log.Ask;
         end if;
         Put ("end_of_cycle", Round);
         Next := Next + Milliseconds (1_000);
         delay until Next;
      end loop;
   end Regular_Producer;

   task body On_Call_Producer is
      Work : Integer;
   begin
      loop
         Requests.Extract (Work);
         Put ("on_call", Work);
      end loop;
   end On_Call_Producer;

   task body Log_Reader is
      Start : constant Time := Clock;
      Many  : Integer;
      Last  : Time;
   begin
      loop
         Activation_Log.Latest (Many, Last);
         Put ("events", Many);
         if Last > Start + Milliseconds (2_500) then
            Put ("last_is_late", Many);
         end if;
      end loop;
   end Log_Reader;
end App;
with App;
procedure Main is
begin
   null;
end Main;
