#!/usr/bin/env python3
"""Texts of ten kinds that runs over font files are measured with, and of some that a shaper of their script shapes:
of scripts cut into syllables they are lines of translations of programs, and for Javanese of the Universal Declaration."""
import random, unicodedata

D = lambda s: unicodedata.normalize("NFD", s)
C = lambda s: unicodedata.normalize("NFC", s)
LATIN = "All human beings are born free and equal in dignity and rights. They are endowed with reason and conscience and should act towards one another in a spirit of brotherhood. Everyone is entitled to all the rights and freedoms set forth in this Declaration, without distinction of any kind. No one shall be held in slavery or servitude; AVAST, To the Wave! "
VIET = "Tất cả mọi người sinh ra đều được tự do và bình đẳng về nhân phẩm và quyền. Mọi con người đều được tạo hoá ban cho lý trí và lương tâm và cần phải đối xử với nhau trong tình bằng hữu. Ai cũng được hưởng những quyền tự do ghi trong bản Tuyên Ngôn này không phân biệt đối xử vì bất cứ lý do nào. "
GREEK = "Ἐν ἀρχῇ ἦν ὁ λόγος, καὶ ὁ λόγος ἦν πρὸς τὸν θεόν, καὶ θεὸς ἦν ὁ λόγος. οὗτος ἦν ἐν ἀρχῇ πρὸς τὸν θεόν. πάντα δι’ αὐτοῦ ἐγένετο, καὶ χωρὶς αὐτοῦ ἐγένετο οὐδὲ ἕν ὃ γέγονεν. Μῆνιν ἄειδε θεὰ Πηληϊάδεω Ἀχιλῆος οὐλομένην, ἣ μυρί’ Ἀχαιοῖς ἄλγε’ ἔθηκε. "
CYRILLIC = "Все люди рождаются свободными и равными в своём достоинстве и правах. Они наделены разумом и совестью и должны поступать в отношении друг друга в духе братства. Каждый человек должен обладать всеми правами и всеми свободами, провозглашёнными настоящей Декларацией. "
HEBREW = "בְּרֵאשִׁית בָּרָא אֱלֹהִים אֵת הַשָּׁמַיִם וְאֵת הָאָרֶץ׃ וְהָאָרֶץ הָיְתָה תֹהוּ וָבֹהוּ וְחֹשֶׁךְ עַל־פְּנֵי תְהוֹם וְרוּחַ אֱלֹהִים מְרַחֶפֶת עַל־פְּנֵי הַמָּיִם׃ וַיֹּאמֶר אֱלֹהִים יְהִי אוֹר וַיְהִי־אוֹר׃ "
DIGITS = "3.14159 26535 89793 23846 26433 83279 50288 41971 69399 37510 58209 74944 59230 78164 06286 20899 86280 34825 34211 70679 "
EMOJI = "Hello 😀 wörld 😎\u200d😃 I ❤\uFE0F you \u2611\uFE0F done 😂😂 café 😍\u200d❤\uFE0F\u200d😘 ok ☺\uFE0F nice 😉 to meet 👍🏽 you 👩\u200d👩\u200d👧 all 😊 and 1\uFE0F\u20E3 more 🙈. "
r = random.Random(33)
MARKS = "".join(c + "".join(r.choice("\u0301\u0302\u0308\u030A\u0323\u0316\u0327\u0300\u0303") for _ in range(r.randrange(33, 60))) for c in "zalgohecomes" * 2)
ARABIC = "يولد جميع الناس أحرارا متساوين في الكرامة والحقوق، وقد وهبوا عقلا وضميرا وعليهم أن يعامل بعضهم بعضا بروح الإخاء. لكل إنسان حق التمتع بكافة الحقوق والحريات الواردة في هذا الإعلان، دون أي تمييز. لكل فرد الحق في الحياة والحرية وسلامة شخصه. "
POINTED = "بِسْمِ اللَّهِ الرَّحْمَٰنِ الرَّحِيمِ الْحَمْدُ لِلَّهِ رَبِّ الْعَالَمِينَ الرَّحْمَٰنِ الرَّحِيمِ مَالِكِ يَوْمِ الدِّينِ إِيَّاكَ نَعْبُدُ وَإِيَّاكَ نَسْتَعِينُ اهْدِنَا الصِّرَاطَ الْمُسْتَقِيمَ "
r = random.Random(1)
LETTERS = "".join(r.choice("ابتثجحخدذرزسشصضطظعغفقكلمنهوي     ") for _ in range(2000))
# Articles 1 to 3 of the Universal Declaration of Human Rights, in the scripts of India.
HINDI = "सभी मनुष्यों को गौरव और अधिकारों के मामले में जन्मजात स्वतन्त्रता और समानता प्राप्त है। उन्हें बुद्धि और अन्तरात्मा की देन प्राप्त है और परस्पर उन्हें भाईचारे के भाव से बर्ताव करना चाहिए। सभी को इस घोषणा में सन्निहित सभी अधिकारों और आज़ादियों को प्राप्त करने का हक़ है और इस मामले में जाति, वर्ण, लिंग, भाषा, धर्म, राजनीति या अन्य विचार-प्रणाली, किसी देश या समाज विशेष में जन्म, सम्पत्ति या किसी प्रकार की अन्य मर्यादा आदि के कारण भेदभाव का विचार न किया जाएगा। प्रत्येक व्यक्ति को जीवन, स्वाधीनता और वैयक्तिक सुरक्षा का अधिकार है। "
BENGALI = "সমস্ত মানুষ স্বাধীনভাবে সমান মর্যাদা এবং অধিকার নিয়ে জন্মগ্রহণ করে। তাঁদের বিবেক এবং বুদ্ধি আছে; সুতরাং সকলেরই একে অপরের প্রতি ভ্রাতৃত্বসুলভ মনোভাব নিয়ে আচরণ করা উচিত। এ ঘোষণায় উল্লেখিত স্বাধীনতা এবং অধিকারসমূহে গোত্র, ধর্ম, বর্ণ, শিক্ষা, ভাষা, রাজনৈতিক বা অন্যবিধ মতামত, জাতীয় বা সামাজিক উৎপত্তি, জন্ম, সম্পত্তি বা অন্য কোন মর্যাদা নির্বিশেষে প্রত্যেকের সমান অধিকার থাকবে। জীবন, স্বাধীনতা এবং দৈহিক নিরাপত্তায় প্রত্যেকের অধিকার আছে। "
PUNJABI = "ਸਾਰਾ ਮਨੁੱਖੀ ਪਰਿਵਾਰ ਆਪਣੀ ਮਹਿਮਾ, ਸ਼ਾਨ ਅਤੇ ਹੱਕਾਂ ਦੇ ਪੱਖੋਂ ਜਨਮ ਤੋਂ ਹੀ ਆਜ਼ਾਦ ਹੈ ਅਤੇ ਸੁਤੇ ਸਿੱਧ ਸਾਰੇ ਲੋਕ ਬਰਾਬਰ ਹਨ। ਉਨ੍ਹਾਂ ਸਭਨਾ ਨੂੰ ਤਰਕ ਅਤੇ ਜ਼ਮੀਰ ਦੀ ਸੌਗਾਤ ਮਿਲੀ ਹੋਈ ਹੈ ਅਤੇ ਉਨ੍ਹਾਂ ਨੂੰ ਭਰਾਤਰੀਭਾਵ ਦੀ ਭਾਵਨਾ ਰਖਦਿਆਂ ਆਪਸ ਵਿਚ ਵਿਚਰਣਾ ਚਾਹੀਦਾ ਹੈ। ਹਰੇਕ ਵਿਅਕਤੀ ਨੂੰ ਜ਼ਿੰਦਗੀ, ਆਜ਼ਾਦੀ ਅਤੇ ਸੁਰੱਖਿਆ ਦਾ ਅਧਿਕਾਰ ਹੈ। "
GUJARATI = "પ્રતિષ્ઠા અને અધિકારોની દૃષ્ટિએ સર્વ માનવો જન્મથી સ્વતંત્ર અને સમાન હોય છે. તેમનામાં વિચારશક્તિ અને અંતઃકરણ હોય છે અને તેમણે પરસ્પર બંધુત્વની ભાવનાથી વર્તવું જોઇએ. દરેક વ્યક્તિને જાતિ, રંગ, ભાષા, ધર્મ, રાજકીય કે બીજા અભિપ્રાય, રાષ્ટ્રીય કે સામાજિક ઉત્પત્તિ, મિલકત, જન્મ કે બીજા દરજ્જાના ભેદભાવ વિના આ ઘોષણામાં રજૂ કરેલા સર્વ અધિકારો અને સ્વાતંત્ર્યો ભોગવવાનો હક છે. દરેકને જીવન, સ્વાતંત્ર્ય અને સલામતીનો અધિકાર છે. "
ODIA = "ସବୁ ମନୁଷ୍ୟ ଜନ୍ମକାଳରୁ ସ୍ୱାଧୀନ। ସେମାନଙ୍କର ମର୍ଯ୍ୟାଦା ଓ ଅଧିକାର ସମାନ। ସେମାନଙ୍କଠାରେ ପ୍ରଜ୍ଞା ଓ ବିବେକ ନିହିତ ଅଛି। ସେମାନଙ୍କୁ ପରସ୍ପର ପ୍ରତି ଭ୍ରାତୃତ୍ୱ ମନୋଭାବ ପୋଷଣ କରି କାର୍ଯ୍ୟ କରିବା ଉଚିତ। ଜାତି, ବର୍ଣ୍ଣ, ଲିଙ୍ଗ, ଭାଷା, ଧର୍ମ, ରାଜନୈତିକ ବା ଅନ୍ୟ ମତବାଦ, ଜାତୀୟ ବା ସାମାଜିକ ଉତ୍ପତ୍ତି, ସମ୍ପତ୍ତି, ଜନ୍ମ ବା ଅନ୍ୟାନ୍ୟ ମର୍ଯ୍ୟାଦା ନିର୍ବିଶେଷରେ ପ୍ରତ୍ୟେକ ବ୍ୟକ୍ତି ଏହି ଘୋଷଣାନାମାର ସମସ୍ତ ଅଧିକାର ଓ ସ୍ୱାଧୀନତାର ଅଧିକାରୀ। "
TAMIL = "மனிதப் பிறவியினர் சகலரும் சுதந்திரமாகவே பிறக்கின்றனர்; அவர்கள் மதிப்பிலும், உரிமைகளிலும் சமமானவர்கள், அவர்கள் நியாயத்தையும் மனச்சாட்சியையும் இயற்பண்பாகப் பெற்றவர்கள். அவர்கள் ஒருவருடனொருவர் சகோதர உணர்வுப் பாங்கில் நடந்துகொள்ளல் வேண்டும். இனம், நிறம், பால், மொழி, மதம், அரசியல் அல்லது வேறு அபிப்பிராயமுடைமை, தேசிய அல்லது சமூகத் தோற்றம், ஆதனம், பிறப்பு அல்லது பிற அந்தஸ்து என்பன போன்ற எத்தகைய வேறுபாடுமின்றி, இப்பிரகடனத்தில் தரப்பட்டுள்ள எல்லா உரிமைகளுக்கும் சுதந்திரங்களுக்கும் எல்லோரும் உரித்துடையவராவர். "
TELUGU = "ప్రతిపత్తిస్వత్వముల విషయమున మానవులెల్లరును జన్మతః స్వతంత్రులును సమానులును నగుదురు. వారు వివేచన-అంతఃకరణ సంపన్నులగుటచే పరస్పరము భ్రాతృభావముతో వర్తింపవలయును. జాతి, వర్ణ, స్త్రీ, పురుష వివక్షత, భాష, మత, రాజకీయ లేక ఇతర అభిప్రాయములు, జాతీయ లేక సాంఘిక ఉద్భవము, ఆస్తి, జన్మ లేక మరి ఇతర ప్రతిపత్తి మొదలగు వాటి విషయమున ఎట్టి భేదము లేకుండ ప్రతి వ్యక్తియు ఈ ప్రకటనమునందు పొందుపరచబడిన స్వాతంత్ర్యములకును, స్వత్వములకును పాత్రులగుదురు. "
KANNADA = "ಎಲ್ಲಾ ಮಾನವರೂ ಸ್ವತಂತ್ರರಾಗಿಯೇ ಜನಿಸಿದ್ದಾರೆ. ಹಾಗೂ ಘನತೆ ಮತ್ತು ಹಕ್ಕುಗಳಲ್ಲಿ ಸಮಾನರಾಗಿದ್ದಾರೆ. ವಿವೇಕ ಮತ್ತು ಅಂತಃಕರಣಗಳನ್ನು ಪಡೆದವರಾದ್ದರಿಂದ ಅವರು ಪರಸ್ಪರ ಸಹೋದರ ಭಾವದಿಂದ ವರ್ತಿಸಬೇಕು. ಜನಾಂಗ, ವರ್ಣ, ಲಿಂಗ, ಭಾಷೆ, ಧರ್ಮ, ರಾಜಕೀಯ ಅಥವಾ ಇತರ ಅಭಿಪ್ರಾಯ, ರಾಷ್ಟ್ರೀಯ ಅಥವಾ ಸಾಮಾಜಿಕ ಮೂಲ, ಆಸ್ತಿ, ಹುಟ್ಟು ಅಥವಾ ಇತರ ಸ್ಥಾನಮಾನಗಳಂತಹ ಯಾವುದೇ ಭೇದಭಾವವಿಲ್ಲದೆ ಈ ಘೋಷಣೆಯಲ್ಲಿ ಹೇಳಲಾದ ಎಲ್ಲ ಹಕ್ಕುಗಳಿಗೂ ಸ್ವಾತಂತ್ರ್ಯಗಳಿಗೂ ಪ್ರತಿಯೊಬ್ಬರೂ ಅರ್ಹರಾಗಿದ್ದಾರೆ. "
MALAYALAM = "മനുഷ്യരെല്ലാവരും തുല്യാവകാശങ്ങളോടും അന്തസ്സോടും സ്വാതന്ത്ര്യത്തോടുംകൂടി ജനിച്ചവരാണ്. അന്യോന്യം ഭ്രാതൃഭാവത്തോടെ പെരുമാറുവാനാണ് മനുഷ്യന് വിവേകബുദ്ധിയും മനസ്സാക്ഷിയും സിദ്ധമായിരിക്കുന്നത്. ജാതി, മതം, നിറം, ഭാഷ, സ്ത്രീപുരുഷഭേദം, രാഷ്ട്രീയാഭിപ്രായം, സ്വത്ത്, കുലം എന്നിവയൊന്നും കണക്കാക്കാതെ ഈ പ്രഖ്യാപനത്തിൽ പറയുന്ന അവകാശങ്ങൾക്കും സ്വാതന്ത്ര്യത്തിനും സർവ്വജനങ്ങളും അർഹരാണ്. "
# What the shaper of the script shapes.
SCRIPTED = {"arabic": ARABIC, "arabic-pointed": POINTED, "arabic-random": LETTERS, "hebrew": D(HEBREW)}
TIBETAN = "གལ་གནད་ཆུང་རིམ་ནང་ རྟགས་བཀོད་ལག་ལེན་འཐབ། ཡིག་ཆ་དེ་ ཆ་ཤས་ཁ་ཕྱེ་ནིའི་ ངོ་རྟགས་ཅིག་གི་ནང་ན་ རེ་བ་མེད་པར་ རྫོགས་སོ་ནུག ཌའི་ལོག་དེ་གི་ ཨེབ་རྟའི་ལྟག་ལུ་ དབྱེ་བྱེད་ཕྲ་རིང་ཅིག་འདུག མདའ་རྟགས་ཀྱི་མཐའ་སྐོར་ལུ་ གྱིབ་མའི་བྱུང་སྣང་། ལག་ཆས་ཕྲ་རིང་གི་ ཨེབ་རྟའི་མཐའ་སྐོར་ལུ་ སེར་ཁའི་བཟོ་རྣམ། ཌའི་ལོག་གཙོ་བོའི་ མངའ་ཁོངས་མཐའ་སྐོར་གྱི་ མཐའ་མཚམས་རྒྱ་ཚད། "
SINHALA = "ස්ථාපනය කිරීමට ගොනු නාමයක් අවශ්‍ය වේ නොබැඳි යාවත්කාලීන ක්‍රියාරම්භ කිරීමට සත්‍යාපනය අවශ්‍ය වේ ක්‍රියා සමුහය දෘශ්‍ය දැයි බලන්න උතුරු ඇමරිකානු පැසිෆික් සම්මත වේලාව මෘදුකාංග ස්ථාපනය කිරීමට සත්‍යාපනය අවශ්‍ය වේ මෘදුකාංගය පහත හෙලීමට සත්‍යාපනය අවශ්‍ය වේ ශාන්ත පියරේ සහ මැකෝලන් සම්මත වේලාව කරුණාකර නිවැරදි මාධ්‍ය ඇතුලත් කරන්න මහජන ප්‍රජාතාන්ත්‍රික ඇල්බේනියා ජනරජය "
JAVANESE = "ꦱꦧꦼꦤꦺꦴꦮꦺꦴꦁꦏꦭꦲꦶꦂꦫꦏꦺꦏꦤ꧀ꦛꦶꦩꦂꦢꦶꦏꦭꦤ꧀ꦢꦂꦧꦺꦩꦂꦠꦧꦠ꧀ꦭꦤ꧀ꦲꦏ꧀ꦲꦏ꧀ꦏꦁꦥꦝ꧉ ꦏꦧꦺꦃꦥꦶꦤꦫꦶꦔꦤ꧀ꦲꦏꦭ꧀ꦭꦤ꧀ꦏꦭ꧀ꦧꦸꦱꦂꦠꦏꦲꦗꦧ꧀ꦥꦱꦿꦮꦸꦔꦤ꧀ꦲꦁꦒꦺꦴꦤ꧀ꦤꦺꦩꦼꦩꦶꦠꦿꦤ꧀ꦱꦶꦗꦶꦭꦤ꧀ꦱꦶꦗꦶꦤꦺꦏꦤ꧀ꦛꦶꦗꦶꦮꦱꦸꦩꦢꦸꦭꦸꦂ꧉ "
KHMER = "បាន​ពន្លា ប៉ុន្តែ​មិន​បាន​កំណត់​រចនាសម្ព័ន្ធ ម៉ោង​ពេលថ្ងៃ​​​​នៅ​អូស្ត្រាលី​កណ្ដាល ​បានជួប​ប្រទះ​​​​ហត្ថលេខា​យ៉ាងហោចណាស់មួយ ដែ​លត្រឹមត្រូវ​ ។ ម៉ោងស្តង់ដារនៅហ្គ្រីនលែនខាងលិច ការតភ្ជាប់​រន្ធ​​ទិន្នន័បានអស់ពេល​ ម៉ោង​ពេលថ្ងៃនៅតំបន់ភ្នំនៃទ្វីប​អាមេរិក​​​ខាង​ជើង ម៉ោង​ស្តង់ដារ​នៅ​អឺរ៉ុប​ខាង​លិច កោះ​តូច​នៅ​ឆ្ងាយ​ពី​សហរដ្ឋ​អាមេរិក បាន​បរាជ័យ​ក្នុង​ការ​ដំណើរ​​ការ​បង្កើត​ភាព​អាស្រ័យ "
BURMESE = "ခလုတ်တန်း ခလုတ်များမှာ သုံးစွဲနိုင်တဲ့ ပိုမို​ တိုတောင်းတဲ့ အမှတ်တံဆိပ်။ မှန်ရင်၊ ရွေးထားတဲ့ လကို ပြောင်းလဲလို့ မရဘူး အပင် မြင်ကွင်း ဂရစ်လိုင်းများကို ရေးဆွဲရန် သုံးစွဲတဲ့ မျဉ်းရှည်လေး ပုံစံ ရုပ်ပုံ အ​ချက်အလက်ကြမ်းအတွက် သုံစွဲနေတဲ့ ကိုယ်စားပြုခြင်း စုပေါင်းအကွက်က ဗဟိုချက်ကို ၄င်းကို ကြွက်ခလုတ်နဲ့ နှိုပ်တဲ့အခါ ဆုတ်ကိုင်ထား၊ မထား စာအမှတ် အမှတ်တံဆိပ်များရဲ့ ဒေါင်လိုက် အနားသတ် အကျယ် "
ADLAM = "𞤑𞤭𞤶𞤮𞥅𞤪𞤫 𞤖𞤭𞤪𞤲𞤢𞥄𞤲𞥋𞤺𞤫 𞤑𞤢𞥁𞤢𞤿𞤢𞤧𞤼𞤢𞥄𞤲 𞤑𞤭𞤶𞤮𞥅𞤪𞤫 𞤕𞤫𞥅𞤯𞤵 𞤊𞤵𞤯𞤲𞤢𞥄𞤲𞤺𞤫 𞤘𞤭𞤪𞤤𞤢𞤲𞤣 𞤑𞤭𞤶𞤮𞥅𞤪𞤫 𞤖𞤢𞤱𞤪𞤵𞤲𞥋𞤣𞤫 𞤊𞤵𞤯𞤲𞤢𞥄𞤲𞥋𞤺𞤫 𞤀𞤪𞤮𞥅𞤦𞤢 𞤑𞤭𞤶𞤮𞥅𞤪𞤫 𞤖𞤢𞤱𞤪𞤵𞤲𞥋𞤣𞤫 𞤕𞤵𞤪𞤭𞥅𞤶𞤫 𞤑𞤵𞥅𞤳 𞤑𞤭𞤶𞤮𞥅𞤪𞤫 𞤖𞤢𞤱𞤪𞤭𞤼𞤵𞤲𞥋𞤣𞤫 𞤖𞤭𞥅𞤪𞤲𞤢𞥄𞤲𞥋𞤺𞤫 𞤀𞤪𞤶𞤢𞤲𞤼𞤭𞤲𞤢𞥄 𞤑𞤭𞤶𞤮𞥅𞤪𞤫 𞤖𞤢𞤱𞤪𞤵𞤲𞥋𞤣𞤫 𞤚𞤵𞤥𞤦𞤮𞥅𞤪𞤭 𞤌𞤧𞤼𞤢𞤪𞤤𞤭𞤴𞤢𞥄 𞤑𞤭𞤶𞤮𞥅𞤪𞤫 𞤖𞤢𞤱𞤪𞤭𞤼𞤵𞤲𞥋𞤣𞤫 𞤄𞤪𞤢𞤧𞤭𞤤𞤭𞤴𞤢𞥄 𞤑𞤭𞤶𞤮𞥅𞤪𞤫 𞤕𞤫𞥅𞤯𞤵 𞤖𞤭𞥅𞤪𞤲𞤢𞥄𞤲𞥋𞤺𞤫 𞤀𞤪𞤮𞥅𞤦𞤢 𞤑𞤭𞤶𞤮𞥅𞤪𞤫 𞤕𞤫𞥅𞤯𞤵 𞤅𞤵𞤪𞤭𞥅𞤪𞤫 𞤐𞤮𞤪𞤬𞤮𞤤𞤳𞤵 𞤈𞤢𞤽𞤢𞤥𞤫 𞤅𞤭𞥅𞤲𞤭𞤲𞤳𞤮 𞤊𞤭𞤲𞤼𞤢𞤱𞤢𞥄𞤶𞤫 𞤐𞥋𞤘𞤢𞤤𞤵 "
NOTO = "/usr/share/fonts/truetype/noto/Noto"
# Each over fonts of its script, of the packages fonts-noto-core, -tibetan-machine, -lklug-sinhala, -khmeros and -sil-padauk.
SYLLABLES = {
    "tibetan": (TIBETAN, [NOTO + "SerifTibetan-Regular.ttf", "/usr/share/fonts/truetype/tibetan-machine/TibetanMachineUni.ttf"]),
    "sinhala": (SINHALA, [NOTO + "SansSinhala-Regular.ttf", "/usr/share/fonts/truetype/sinhala/lklug.ttf"]),
    "javanese": (JAVANESE, [NOTO + "SansJavanese-Regular.ttf"]),
    "khmer": (KHMER, [NOTO + "SansKhmer-Regular.ttf", "/usr/share/fonts/truetype/khmeros/KhmerOS.ttf"]),
    "burmese": (BURMESE, [NOTO + "SansMyanmar-Regular.ttf", "/usr/share/fonts/truetype/padauk/Padauk-Regular.ttf"]),
    "adlam": (ADLAM, [NOTO + "SansAdlam-Regular.ttf"]),
}
LOHIT = "/usr/share/fonts/truetype/lohit-"
# The scripts of India, over fonts of the packages fonts-noto-core, fonts-indic and fonts-deva, -beng, -gujr,
# -guru, -orya, -taml, -telu and -mlym with -extra.
SYLLABLES |= {
    "hindi": (HINDI, [NOTO + "SansDevanagari-Regular.ttf", NOTO + "SerifDevanagari-Regular.ttf", LOHIT + "devanagari/Lohit-Devanagari.ttf",
                      "/usr/share/fonts/truetype/Gargi/Gargi.ttf", "/usr/share/fonts/truetype/Nakula/nakula.ttf"]),
    "bengali": (BENGALI, [NOTO + "SansBengali-Regular.ttf", NOTO + "SerifBengali-Regular.ttf", LOHIT + "bengali/Lohit-Bengali.ttf",
                          "/usr/share/fonts/truetype/fonts-beng-extra/Ani.ttf", "/usr/share/fonts/truetype/fonts-beng-extra/Mukti.ttf"]),
    "punjabi": (PUNJABI, [NOTO + "SansGurmukhi-Regular.ttf", NOTO + "SerifGurmukhi-Regular.ttf", LOHIT + "punjabi/Lohit-Gurmukhi.ttf",
                          "/usr/share/fonts/truetype/fonts-guru-extra/Saab.ttf"]),
    "gujarati": (GUJARATI, [NOTO + "SansGujarati-Regular.ttf", NOTO + "SerifGujarati-Regular.ttf", LOHIT + "gujarati/Lohit-Gujarati.ttf",
                            "/usr/share/fonts/truetype/fonts-kalapi/Kalapi.ttf"]),
    "odia": (ODIA, [NOTO + "SansOriya-Regular.ttf", LOHIT + "oriya/Lohit-Odia.ttf", "/usr/share/fonts/truetype/samyak-fonts/Samyak-Oriya.ttf"]),
    "tamil": (TAMIL, [NOTO + "SansTamil-Regular.ttf", NOTO + "SerifTamil-Regular.ttf", LOHIT + "tamil/Lohit-Tamil.ttf",
                      "/usr/share/fonts/truetype/samyak-fonts/Samyak-Tamil.ttf"]),
    "telugu": (TELUGU, [NOTO + "SansTelugu-Regular.ttf", NOTO + "SerifTelugu-Regular.ttf", LOHIT + "telugu/Lohit-Telugu.ttf",
                        "/usr/share/fonts/truetype/fonts-telu-extra/vemana2000.ttf"]),
    "kannada": (KANNADA, [NOTO + "SansKannada-Regular.ttf", NOTO + "SerifKannada-Regular.ttf", LOHIT + "kannada/Lohit-Kannada.ttf"]),
    "malayalam": (MALAYALAM, [NOTO + "SansMalayalam-Regular.ttf", NOTO + "SerifMalayalam-Regular.ttf", LOHIT + "malayalam/Lohit-Malayalam.ttf",
                              "/usr/share/fonts/truetype/malayalam/Meera-Regular.ttf", "/usr/share/fonts/truetype/malayalam/Rachana-Regular.ttf"]),
}
KINDS = {"latin": LATIN, "viet-nfd": D(VIET), "viet-nfc": C(VIET), "greek-nfc": C(GREEK), "greek-nfd": D(GREEK), "cyrillic": CYRILLIC,
         "hebrew": D(HEBREW), "digits": DIGITS, "emoji": EMOJI, "marks33": MARKS}
