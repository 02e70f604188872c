--  Tapes that grow and shrink, for the makers of tapes.

with Ada.Containers.Vectors;
with Tapes;

package Octet_Vectors is new Ada.Containers.Vectors
  (Natural, Tapes.Octet, Tapes."=");
