<?php
namespace Shop;

# [the currency and the rates, in percent]
const CURRENCY = 'EUR';
const RATES = ['standard' => 19, 'reduced' => 7];
