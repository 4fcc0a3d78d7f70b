--  A client asks a worker of a higher priority, through a mailbox with room for one request: to write a word of the worker's memory, to read it, and to stop. The
--  worker waits at the mailbox for each request, and in the end for one that nobody sends.
pragma Profile (Ravenscar);
with Ada.Real_Time; use Ada.Real_Time;
with Control_IO; use Control_IO;
package App is
   type Request_Kind is range 0 .. 2;
   Read_Op  : constant Request_Kind := 0;
   Write_Op : constant Request_Kind := 1;
   Stop_Op  : constant Request_Kind := 2;
   type Request is record
      Kind    : Request_Kind;
      Address : Natural;
      Value   : Integer;
   end record;
   type Storage is array (0 .. 15) of Integer;
   protected Mailbox with Priority => 30 is
      procedure Send (R : in Request);
      entry Receive (R : out Request);
   private
      Pending : Request;
      Full    : Boolean := False;
   end Mailbox;
   task Client with Priority => 10;
   task Worker with Priority => 20;
end App;
package body App is
   protected body Mailbox is
      procedure Send (R : in Request) is
      begin
         Pending := R;
         Full := True;
      end Send;
      entry Receive (R : out Request) when Full is
      begin
         R := Pending;
         Full := False;
      end Receive;
   end Mailbox;
   procedure Ask (Kind : Request_Kind; Address : Natural; Value : Integer) is
      R : Request;
   begin
      R.Kind := Kind;
      R.Address := Address;
      R.Value := Value;
      Mailbox.Send (R);
   end Ask;
   task body Client is
      Next : Time := Clock;
   begin
      Ask (Write_Op, 3, 42);
      Next := Next + Milliseconds (10);
      delay until Next;
      Ask (Read_Op, 3, 0);
      Next := Next + Milliseconds (10);
      delay until Next;
      Ask (Stop_Op, 0, 0);
   end Client;
   task body Worker is
      Memory : Storage;
      R      : Request;
   begin
      for I in Memory'First .. Memory'Last loop
         Memory (I) := 0;
      end loop;
      loop
         Mailbox.Receive (R);
         case R.Kind is
            when Read_Op  => Put ("value", Memory (R.Address));
            when Write_Op => Memory (R.Address) := R.Value;
            when Stop_Op  => Put ("stop", 0);
            when others => null;
         end case;
      end loop;
   end Worker;
end App;
with App;
procedure Main is
begin
   null;
end Main;
