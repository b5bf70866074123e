<?php
class Match
{
}
