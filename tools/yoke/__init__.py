"""Jobs for people: the modules behind tools/job."""
